"""BMP: pictures that ImageMagick makes, compared with file and Pillow."""

from hashlib import sha256

from common import COUNT, Format, found, make_pictures, pillow, run


def make_bmp():
    """Of each version, of 1, 4, 8, 24 and 32 bits, packed too."""
    for number in range(COUNT):
        form = ("bmp", "bmp3", "bmp2")[number % 3]
        kinds = [["-colors", 2], ["-colors", 16], ["-colors", 256], ["-type", "TrueColor"]]
        kinds += [["-type", "TrueColorAlpha"], ["-colors", 200, "-compress", "RLE"]]
        more = kinds[number % 6 if form != "bmp2" else number % 4]
        make_pictures(number, f"{form}:{number:02}.bmp", *more, "-density", 20 + number)


PILLOW = """
import hashlib
facts = {"size": list(it.size)}
if it.mode == "RGB":
    facts["pixels"] = hashlib.sha256(it.tobytes("raw", "BGR")).hexdigest()
if it.mode in ("L", "P") and max(open(file, "rb").read(30)[28:]) == 8:
    facts["pixels"] = hashlib.sha256(it.tobytes()).hexdigest()
"""


def bmp(value, _):
    info = value.get("info") or value["core"]
    height = abs(info["height"])
    facts = {"size": [info["width"], height], "bits": info["bits"]}
    facts["pixels at"] = value["pixels_at"]["magnitude"]
    rows = [bytes(it["pixels"]) for it in value["image"]["rows"] or value["image"]["core_rows"]]
    if rows and info["bits"] in (8, 24):
        rows = rows if info["height"] < 0 else rows[::-1]
        facts["pixels"] = sha256(b"".join(rows)).hexdigest()
    return facts


def bmp_by_tool(file):
    printed = run("file", "-b", file)
    facts = {"bits": int(found(r"x -?\d+ x (\d+)", printed)), "pixels at": int(found(r"bits offset (\d+)", printed))}
    return facts | pillow(PILLOW, file)


FORMATS = {"bmp": Format("bmp", "Bmp", make_bmp, bmp, bmp_by_tool)}
