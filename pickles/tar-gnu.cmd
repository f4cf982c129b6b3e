map tar.pk Archive tar_gnu.tar
