map microcode.pk Updates microcode.bin
