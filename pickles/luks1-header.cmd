map luks1.pk Luks1 luks1.img
