map squashfs.pk FileSystem squashfs.img
