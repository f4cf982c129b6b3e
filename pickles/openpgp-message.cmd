map --whole openpgp.pk Packets openpgp_message.gpg
