map ogg.pk Ogg ogg.ogg
