map png.pk Png png.png
