map --whole tls.pk Records tls_server.bin
