map --endian little gzip.pk Gzip gzip.gz
