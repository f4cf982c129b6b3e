"""TIFF: pictures that ImageMagick and tiffcp make, compared with tiffdump."""

import os
import re

from common import COUNT, Format, make_pictures, run


def make_tiff():
    """Of both byte orders, in strips and tiles, packed in each way, of 1 to 32 bits."""
    for number in range(COUNT):
        kinds = ["TrueColor", "Grayscale", "Palette", "Bilevel", "TrueColorAlpha"]
        more = ["-type", kinds[number % 5], "-depth", (8, 16)[number // 5 % 2], "-compress", "None"]
        make_pictures(number, "tif", *more, "-set", "comment", f"text {number}")
        name = f"{number:02}.tif"
        ways = ["none", "lzw", "zip", "packbits"]
        more = ["-c", ways[number % 4], ("-L", "-B")[number % 2]]
        more += ["-t", "-w", 16 << number % 3, "-l", 16] if number % 3 == 2 else ["-s", "-r", 1 + number % 20]
        more += ["-p", "separate"] if number % 20 in (10, 14) else []  # of colours of 8 bits
        run("tiffcp", *more, name, "new.tif")
        os.rename("new.tif", name)


def tiff_order(file):
    with open(file, "rb") as it:
        return "--endian", "big" if it.read(2) == b"MM" else "little"


def directory(value):
    """The directory's entries."""
    if isinstance(value, dict):
        if "entries" in value:
            return value["entries"]
        return next((found for it in value.values() if (found := directory(it))), None)
    return None


def tiff(value, _):
    facts = {"entries": []}
    for it in directory(value):
        it = it.get("entry", it)
        facts["entries"].append((it["tag"], it["count"]))
    return facts


def tiff_by_tool(file):
    printed = run("tiffdump", file)
    told = re.findall(r"^\S* ?\((\d+)\) \w+ \(\d+\) (\d+)<", printed, re.M)
    return {"entries": [(int(tag), int(count)) for tag, count in told]}


FORMATS = {"tiff": Format("tiff", "Tiff", make_tiff, tiff, tiff_by_tool, tiff_order)}
