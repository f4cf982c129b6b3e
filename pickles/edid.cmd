map edid.pk Edid edid.edid
