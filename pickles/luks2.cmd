map luks2.pk Device luks2_device.img
