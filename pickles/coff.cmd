map --endian little coff.pk Coff coff.obj
