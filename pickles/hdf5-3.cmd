map hdf5.pk Hdf5 hdf5_3.h5
