map --endian little firmware_volume.pk WholeVolume firmware_variables.fv
