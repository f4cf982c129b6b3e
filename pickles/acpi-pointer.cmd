map acpi.pk Pointer acpi_pointer.bin
