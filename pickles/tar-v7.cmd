map tar.pk Archive tar_v7.tar
