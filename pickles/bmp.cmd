map bmp.pk Bmp bmp.bmp
