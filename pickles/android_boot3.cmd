map --endian little android_boot.pk Boot android_boot3.img
