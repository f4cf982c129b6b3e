map xfs.pk Xfs xfs.img
