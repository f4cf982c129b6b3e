map tga.pk Tga tga.tga
