map fdt.pk Tokens fdt.dtb
