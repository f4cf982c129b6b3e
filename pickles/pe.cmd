map --endian little pe.pk Whole pe.exe
