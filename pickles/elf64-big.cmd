map elf64.pk Whole elf64-big.o
