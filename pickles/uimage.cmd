map uimage.pk Image uimage.img
