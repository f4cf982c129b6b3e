map woff.pk Woff woff.woff
