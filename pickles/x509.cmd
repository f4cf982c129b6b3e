map x509.pk Certificate der.der
