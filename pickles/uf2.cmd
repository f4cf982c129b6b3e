map uf2.pk Uf2 uf2.uf2
