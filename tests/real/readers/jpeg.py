"""JPEG: pictures that ImageMagick makes, compared with Pillow."""

from common import COUNT, Format, make_pictures, pillow


def make_jpeg():
    """Of other qualities, samplings and colours, progressive too, with comments and restarts."""
    for number in range(COUNT):
        more = ["-quality", 5 + number % 19 * 5, "-interlace", ("None", "JPEG")[number % 2]]
        more += ["-sampling-factor", ("4:2:0", "4:4:4", "4:2:2", "4:1:1", "1x2")[number % 5]]
        more += ["-colorspace", ("sRGB", "Gray", "CMYK")[number % 7 % 3], "-density", 30 + number]
        more += ["-set", "comment", f"picture {number}"] if number % 3 else []
        more += ["-define", "jpeg:optimize-coding=off"] if number % 4 else []
        make_pictures(number, "jpg", *more)


PILLOW = """
facts = {"size": list(it.size), "progressive": bool(it.info.get("progressive")), "layers": it.layers}
facts["segments"] = [[name, len(content)] for name, content in it.applist]
facts["quantization"] = {str(at): sorted(steps) for at, steps in it.quantization.items()}
facts["components"] = [[of[0], of[1], of[2], of[3]] for of in it.layer]
"""


def jpeg(value, _):
    facts = {"segments": [], "quantization": {}, "progressive": False}
    for it in value["image"]["segments"]:
        kind = it["kind"]
        if 0xE0 <= kind < 0xF0 or kind == 0xFE:
            name = "COM" if kind == 0xFE else f"APP{kind - 0xE0}"
            facts["segments"].append([name, it["size"]["magnitude"] - 2])
        for of in it.get("quantization", []):
            facts["quantization"][str(of["table"])] = sorted(of["steps"])
        if "frame" in it:
            frame, facts["progressive"] = it["frame"], kind in (0xC2, 0xC6, 0xCA)
            facts |= {"size": [frame["width"], frame["height"]], "layers": frame["count"]}
            facts["components"] = [list(of.values()) for of in frame["components"]]
    return facts


FORMATS = {"jpeg": Format("jpeg", "Jpeg", make_jpeg, jpeg, lambda file: pillow(PILLOW, file))}
