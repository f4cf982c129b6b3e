"""PSF: the fonts of Debian's console-setup-linux, compared with psfgettable and Python's struct."""

import gzip
import os
import struct
from glob import glob

from common import COUNT, Format, some


def make_psf():
    for number, it in enumerate(some(glob("/usr/share/consolefonts/*.psf.gz"), COUNT)):
        with gzip.open(it) as packed, open(f"{number:02}-{os.path.basename(it)[:-3]}", "wb") as file:
            file.write(packed.read())


def psf(value, _):
    ((form, it),) = value.items()
    facts = {"version": 1 if form == "version_1" else 2, "count": len(it["glyphs"])}
    facts["glyphs"] = b"".join(bytes(of["rows"]) for of in it["glyphs"]).hex()
    facts["size"] = it["size"] if form == "version_1" else it["size"]["magnitude"]
    return facts


def psf_by_struct(file):
    with open(file, "rb") as font:
        data = font.read()
    if data[:2] == b"\x36\x04":
        version, start, size, count = 1, 4, data[3], 512 if data[2] & 1 else 256
    else:
        version, (start, _, count, size) = 2, struct.unpack_from("<4I", data, 8)
    glyphs = data[start : start + count * size].hex()
    return {"version": version, "count": count, "size": size, "glyphs": glyphs}


FORMATS = {"psf": Format("psf", "Psf", make_psf, psf, psf_by_struct, ("--whole",))}
