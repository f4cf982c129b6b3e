map usb.pk Descriptors usb.bin
