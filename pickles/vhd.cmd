map vhd.pk Vhd vhd.vhd
