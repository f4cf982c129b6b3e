map dhcp.pk Message dhcp.bin
