"""TGA: pictures that ImageMagick makes, compared with file and Pillow."""

from hashlib import sha256

from common import COUNT, Format, found, make_pictures, pillow, run


def make_tga():
    """Of colours, greys and palettes, with and without alpha, plain and packed."""
    for number in range(COUNT):
        kinds = ["TrueColor", "TrueColorAlpha", "Palette", "Grayscale"]
        more = ["-type", kinds[number % 4], "-compress", ("None", "RLE")[number % 16 == 15]]
        more += ["-set", "comment", f"text {number}"] if number % 3 else []
        more += ["-orient", ("TopLeft", "BottomLeft", "TopRight", "BottomRight")[number // 4 % 4]]
        make_pictures(number, "tga", *more)


PILLOW = """
import hashlib
facts = {"size": list(it.size)}
if it.mode == "RGB":
    facts["pixels"] = hashlib.sha256(it.tobytes("raw", "BGR")).hexdigest()
if it.mode in ("L", "P"):
    facts["pixels"] = hashlib.sha256(it.tobytes()).hexdigest()
"""


def tga(value, file):
    image = value["image"]
    facts = {"size": [image["width"], image["height"]], "bits": image["bits"], "kind": image["kind"]}
    with open(file, "rb") as picture:
        facts["text"] = bytes(image["text"]) == picture.read(18 + len(image["text"]))[18:]
    if image["rows"] and image["kind"] in (1, 2, 3) and not image["order"]["from_right"]:
        rows = [bytes(it["pixels"]) for it in image["rows"]]
        rows = rows if image["order"]["from_top"] else rows[::-1]
        if image["bits"] in (8, 24):
            facts["pixels"] = sha256(b"".join(rows)).hexdigest()
    return facts


def tga_by_tool(file):
    printed = run("file", "-b", file)
    kinds = {"Map": 1, "RGB": 2, "RGBA": 2, "Mono": 3, "Color": 2}
    kind = kinds[found(r"Targa image data - (\w+)", printed)] + 8 * ("RLE" in printed)
    facts = {"kind": kind, "bits": int(found(r" x \d+ x (\d+)", printed)), "text": True}
    told = pillow(PILLOW, file)
    if kind > 8 or "right" in printed:
        told.pop("pixels", None)
    return facts | told


FORMATS = {"tga": Format("tga", "Tga", make_tga, tga, tga_by_tool)}
