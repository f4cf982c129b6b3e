map --endian little btrfs.pk Btrfs btrfs.img
