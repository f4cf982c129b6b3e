map lz4.pk Lz4 lz4.lz4
