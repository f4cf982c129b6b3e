map der.pk Der der.der
