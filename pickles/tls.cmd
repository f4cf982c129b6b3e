map --whole tls.pk Records tls.bin
