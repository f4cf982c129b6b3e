map flac.pk Flac flac.flac
