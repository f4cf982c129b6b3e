map --endian little fat.pk Fat fat32.img
