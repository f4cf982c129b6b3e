map truetype.pk Font truetype.ttf
