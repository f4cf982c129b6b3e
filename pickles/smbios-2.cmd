map --whole smbios.pk Dump smbios_2.bin
