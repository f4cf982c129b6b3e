map elf32.pk Whole elf32-library.so
