map --endian little ntfs.pk Ntfs ntfs.img
