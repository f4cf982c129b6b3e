map --endian little pcapng.pk Capture pcapng.pcapng
