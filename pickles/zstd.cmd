map zstd.pk Zstd zstd.zst
