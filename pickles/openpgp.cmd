map --whole openpgp.pk Packets openpgp.gpg
