map tga.pk Tga tga_packed.tga
