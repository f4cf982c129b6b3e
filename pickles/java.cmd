map java.pk Class java.class
