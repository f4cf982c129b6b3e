map --whole psf.pk Psf psf.psf
