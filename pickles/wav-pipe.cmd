map --endian little wav.pk Piped wav_pipe.wav
