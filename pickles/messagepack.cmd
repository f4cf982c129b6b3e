map messagepack.pk Message messagepack.msgpack
