map --whole nvme.pk Controller nvme.bin
