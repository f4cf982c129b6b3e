map --endian little elf64.pk Whole elf64-mips.o
