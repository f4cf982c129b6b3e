map --endian little wav.pk Wav wav.wav
