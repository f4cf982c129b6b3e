map luks1.pk Device luks1_device.img
