map ines.pk Ines ines.nes
