map pcap.pk Capture pcap_big.pcap
