map gameboy.pk Cartridge gameboy.gb
