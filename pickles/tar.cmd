map tar.pk Archive tar.tar
