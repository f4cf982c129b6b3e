"""Ogg: Opus, Vorbis and FLAC of ffmpeg, compared with Python's struct."""

import struct

from common import Format
from sounds import make_sounds


def make_ogg():
    make_sounds(
        [
            ("opus", "-c:a", "libopus"),
            ("ogg", "-c:a", "libvorbis"),
            ("oga", "-c:a", "flac"),
            ("ogg", "-c:a", "libvorbis", "-ac", "2"),
        ]
    )


def ogg(value, _):
    pages = value["pages"]
    size = lambda it: 27 + it["count"] + sum(it["sizes"]) if "sizes" in it else 27
    return {"pages": [(it["number"], it["place"], it["stream"], it["sum"], size(it)) for it in pages]}


def ogg_by_struct(file):
    with open(file, "rb") as sound:
        data = sound.read()
    pages, at = [], 0
    while at < len(data):
        place, stream, number, total, count = struct.unpack_from("<qIIIB", data, at + 6)
        size = 27 + count + sum(data[at + 27 : at + 27 + count])
        pages.append((number, place, stream, total, size))
        at += size
    return {"pages": pages}


FORMATS = {
    "ogg": Format("ogg", "Ogg", make_ogg, ogg, ogg_by_struct, ("--endian", "little")),
}
