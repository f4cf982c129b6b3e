map tzif.pk Tzif tzif.tzif
