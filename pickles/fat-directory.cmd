map --endian little --at 2048#B fat.pk Directory fat.img
