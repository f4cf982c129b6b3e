map luks2.pk Luks2 luks2.img
