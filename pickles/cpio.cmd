map cpio.pk Archive cpio.cpio
