"""iNES and NES 2.0: images that cc65 makes, compared with file and Python's struct."""

import os
import re
import struct
from glob import glob

from common import COUNT, Format, found, run


INES = """
.segment "HEADER"
.byte "NES", $1a, {header}
.segment "CODE"
start: jmp start
.byte {number}
"""


INES_PARTS = """
MEMORY {{
  HEADER: file = %O, start = 0, size = {head}, fill = yes;
  ROM: file = %O, start = 0, size = {program}, fill = yes;
  CHARACTERS: file = %O, start = 0, size = {characters}, fill = yes;
}}
SEGMENTS {{
  HEADER: load = HEADER, type = ro;
  CODE: load = ROM, type = ro;
}}
"""


def make_ines():
    """By cc65's ca65 and ld65, in the form of iNES and NES 2.0, with other mappers, banks, mirrors and machines."""
    for number in range(COUNT):
        mapper, trainer = (0, 1, 2, 3, 4, 7, 9, 66, 69, 105, 206)[number % 11], number % 5 == 4
        program, characters, new = 1 << number % 6, (0, 1, 2, 4, 16)[number % 5], number % 3 == 2
        flags = (mapper & 15) << 4 | (number % 7 == 6) << 3 | trainer << 2 | (number % 4 > 1) << 1 | number % 2
        more = [mapper & 0xF0 | new << 3 | (number % 6 == 1) + 2 * (number % 6 == 3)]
        more += [(number & 15) << 4 | 2, 0, 7, 0x70, number % 2, 0, 0, 0] if new else [1, 0, 0, 0, 0, 0, 0, 0]
        header = ", ".join(map(str, [program, characters, flags, *more]))
        with open("from.s", "w") as file:
            file.write(INES.format(header=header, number=number))
        with open("from.cfg", "w") as file:
            sizes = {"program": program << 14, "characters": characters << 13, "head": 528 if trainer else 16}
            file.write(INES_PARTS.format(**sizes))
        run("ca65", "from.s", "-o", "from.o")
        run("ld65", "-C", "from.cfg", "from.o", "-o", f"{number:02}.nes")
    for it in glob("from.*"):
        os.remove(it)


def ines(value, _):
    flags, more, new = value["flags"], value["flags_2"], value.get("nes2")
    byte_8 = new["mapper_more"]["submapper"] << 4 | new["mapper_more"]["mapper_high"] if new else 0
    mirror = "4-Scr" if flags["four_screens"] else "V-mirror" if flags["vertical"] else "H-mirror"
    words = [mirror, *["SRAM"] * flags["battery"], *["Trainer"] * flags["has_trainer"]]
    return {
        "new": more["form"] == 2,
        "banks": [len(value["program"]) >> 14, len(value["characters"]) >> 13],
        "words": words + {1: ["VS"], 2: ["PC10"]}.get(more["console"], []),
        "mapper": flags["mapper_low"] | more["mapper_middle"] << 4,
        "rest": [byte_8, *new["others"]] if new else value["others"],
        "size": 16 + sum(len(value.get(it, "")) for it in ("trainer", "program", "characters")),
    }


def ines_by_tool(file):
    """What file tells, and by Python's struct the mapper and what stands behind it."""
    printed = run("file", "-b", file)
    with open(file, "rb") as image:
        data = image.read()
    low, high, *rest = struct.unpack_from("10B", data, 6)
    new = "NES 2.0" in printed
    words = re.findall(r"\[([^]]*)\]", printed)
    return {
        "new": new,
        "banks": [int(found(rf"(\d+)x{it}", printed) or "0") for it in ("16k PRG", "8k CHR")],
        "words": [it for it in words if it not in ("NTSC", "PAL")],
        "mapper": low >> 4 | high & 0xF0,
        "rest": [rest[0], *rest[2:]] if new else rest,
        "size": len(data),
    }


FORMATS = {
    "ines": Format("ines", "Ines", make_ines, ines, ines_by_tool),
}
