map xz.pk Xz xz.xz
