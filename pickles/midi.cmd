map midi.pk Midi midi.mid
