map ar.pk Archive ar.a
