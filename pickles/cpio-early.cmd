map cpio.pk RamDisk cpio_early.img
