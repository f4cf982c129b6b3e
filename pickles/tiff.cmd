map --endian little tiff.pk Tiff tiff.tif
