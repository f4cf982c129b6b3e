map --whole psf.pk Psf psf2.psf
