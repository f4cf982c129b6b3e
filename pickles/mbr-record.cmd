map mbr.pk Mbr mbr.img
