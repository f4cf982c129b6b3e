"""Icons and cursors that icotool and ImageMagick make, compared with icotool."""

import os
import re
from glob import glob

from common import COUNT, Format, run


def make_ico():
    """Of one to nine pictures, of other depths, a few as PNG."""
    for number in range(COUNT):
        pictures = []
        for part in range(1 + number % 9):
            pictures.append(f"{part}.png")
            side = (16, 24, 32, 48, 64, 8, 20, 40, 128)[(part + number) % 9]
            kind = ["-colors", (2, 16, 256)[number % 3]] if number % 4 else ["-type", "TrueColorAlpha"]
            run("convert", "-size", f"{side}x{side}", "-seed", number + part, "plasma:red-blue", *kind, pictures[-1])
        kind = ["--cursor", "--hotspot-x=3", f"--hotspot-y={number % 8}"] if number % 5 == 4 else ["--icon"]
        names = [f"--raw={it}" if number % 6 == 5 and at == 0 else it for at, it in enumerate(pictures)]
        run("icotool", "-c", *kind, "-o", f"{number:02}.ico", *names)
    for it in glob("*.png"):
        os.remove(it)


def ico(value, _):
    facts = {"kind": value["kind"], "pictures": []}
    for at, entry in enumerate(value["entries"], 1):
        image = value[f"image_{at}"] if f"image_{at}" in value else value["images"][at - 1]
        shown = [entry["width"], entry["height"]]
        if "bitmap" in image:
            head = image["bitmap"]
            shown = [head["width"], head["heights"] // 2, head["bits"], len(head["palette"])]
        if "png" in image:
            data = bytes(image["png"]["chunks"][0]["chunk"]["data"])
            colours = {0: 1, 2: 3, 3: 1, 4: 2, 6: 4}[data[9]]
            shown = [int.from_bytes(data[:4], "big"), int.from_bytes(data[4:8], "big"), data[8] * colours, 0]
        hot = [entry["planes_or_x"], entry["bits_or_y"]] if value["kind"] == 2 else []
        facts["pictures"].append(shown + hot)
    return facts


def ico_by_tool(file):
    printed = run("icotool", "-l", file)
    numbers = r" --width=(\d+) --height=(\d+) --bit-depth=(\d+) --palette-size=(\d+)"
    numbers += r"(?: --hotspot-x=(\d+) --hotspot-y=(\d+))?"
    told = re.findall(rf"^--(?:icon|cursor) --index=\d+{numbers}", printed, re.M)
    pictures = [[int(it) for it in picture if it] for picture in told]
    return {"kind": 2 if "--cursor" in printed else 1, "pictures": pictures}


FORMATS = {"ico": Format("ico", "Icon", make_ico, ico, ico_by_tool, ("--endian", "little"))}
