map --endian little elf.pk Elf elf.elf
