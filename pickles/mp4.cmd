map mp4.pk Mp4 mp4.mp4
