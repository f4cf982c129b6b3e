map --endian little firmware_volume.pk WholeVolume firmware_volume.fv
