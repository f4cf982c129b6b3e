map elf32.pk Whole elf32-big.o
