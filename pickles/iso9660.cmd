map iso9660.pk Image iso9660.iso
