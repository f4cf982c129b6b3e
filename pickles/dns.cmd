map --whole dns.pk Message dns.bin
