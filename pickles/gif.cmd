map gif.pk Gif gif.gif
