map --endian little pcap.pk Capture ipv6.pcap
