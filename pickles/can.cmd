map --endian little can.pk Capture can.pcap
