map tiff.pk Tiff tiff_tiles.tif
