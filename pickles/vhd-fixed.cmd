map vhd.pk Fixed vhd_fixed.vhd
