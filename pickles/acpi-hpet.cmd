map acpi.pk Table acpi_hpet.aml
