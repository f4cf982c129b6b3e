map mbr.pk Disk mbr_disk.img
