map --endian little ext4.pk Device ext4.img
