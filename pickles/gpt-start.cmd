map --endian little gpt.pk Start gpt.img
