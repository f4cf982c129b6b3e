map --endian little fat.pk Fat fat.img
