map --whole nvme.pk Namespace nvme_namespace.bin
