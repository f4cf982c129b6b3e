map --endian little bzimage.pk Kernel bzimage.img
