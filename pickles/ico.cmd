map --endian little ico.pk Icon ico.ico
