map qcow2.pk Qcow2 qcow2.qcow2
