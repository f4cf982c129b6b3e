map --endian little gpt.pk Disk gpt.img
