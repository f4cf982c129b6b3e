map --endian little macho.pk Whole macho.o
