map acpi.pk Table acpi_srat.aml
