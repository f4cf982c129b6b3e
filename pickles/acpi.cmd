map acpi.pk Table acpi.aml
