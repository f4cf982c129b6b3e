map bmp.pk Bmp bmp_4.bmp
