map fdt.pk Tree fdt.dtb
