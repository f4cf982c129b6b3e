map --at 193#B zip.pk Directory zip.zip
