map --whole smbios.pk Dump smbios.bin
