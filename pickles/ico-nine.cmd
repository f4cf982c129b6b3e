map --endian little ico.pk Icon ico_nine.ico
