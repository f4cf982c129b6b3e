map --endian little pcap.pk Capture pcap.pcap
