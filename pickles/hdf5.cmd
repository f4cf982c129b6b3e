map hdf5.pk Hdf5 hdf5.h5
