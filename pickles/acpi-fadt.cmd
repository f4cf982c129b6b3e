map acpi.pk Table acpi_fadt.aml
