map --endian little ext4.pk Ext4 ext4-start.img
