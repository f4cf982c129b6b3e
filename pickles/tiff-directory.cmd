map --endian little --at 8#B tiff.pk Directory tiff.tif
