map jpeg.pk Jpeg jpeg.jpg
