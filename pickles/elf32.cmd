map --endian little elf32.pk Whole elf32.o
