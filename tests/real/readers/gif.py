"""GIF: pictures that ImageMagick makes, compared with Pillow."""

from common import COUNT, Format, make_pictures, pillow


def make_gif():
    """Of one or several pictures, with delays, comments, transparency and other counts of colours."""
    for number in range(COUNT):
        more = ["-colors", 2 << number % 8, "-delay", number, "-loop", number % 5, "-dispose", number % 4]
        more += ["-interlace", ("None", "GIF")[number % 2]]
        more += ["-set", "comment", f"picture {number}"] if number % 3 else []
        more += ["-duplicate", number % 6, "-modulate", 100 + number] if number % 6 else []
        make_pictures(number, "gif", *more)


PILLOW = """
facts = {"size": list(it.size), "pictures": it.n_frames, "version": it.info["version"].decode(), "delays": []}
facts["colours"] = len(it.global_palette.palette) // 3 if it.global_palette else 0
for at in range(it.n_frames):
    it.seek(at)
    facts["delays"].append(it.info.get("duration", 0) // 10)
it.seek(0)
facts["comment"] = it.info.get("comment", b"").decode()
"""


def blocks(it):
    return b"".join(bytes(of["data"]) for of in it["blocks"])


def gif(value, _):
    extensions = [it["extension"] for it in value["parts"] if "extension" in it]
    comments = [blocks(it["comment"]).decode() for it in extensions if "comment" in it]
    pictures = [it["picture"] for it in value["parts"] if "picture" in it]
    controls = [it["control"]["delay"] for it in extensions if "control" in it]
    return {
        "size": [value["width"], value["height"]],
        "pictures": len(pictures),
        "version": "GIF" + bytes(value["version"]).decode(),
        "delays": controls or [0] * len(pictures),
        "colours": len(value.get("colours", [])),
        "comment": comments[0] if comments else "",
    }


FORMATS = {"gif": Format("gif", "Gif", make_gif, gif, lambda file: pillow(PILLOW, file))}
