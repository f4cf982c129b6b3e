"""MP4 and QuickTime: films that ffmpeg makes, compared with ffprobe."""

import re
import subprocess

from common import COUNT, Format, run
from sounds import TONE


def make_mp4():
    kinds = [
        ("mp4", "-c:v", "mpeg4"),
        ("mp4", "-c:v", "libx264", "-movflags", "faststart"),
        ("mov", "-c:v", "mjpeg"),
        ("mp4", "-c:v", "mpeg4", "-movflags", "frag_keyframe+empty_moov"),
        ("m4v", "-c:v", "libx264"),
        ("3gp", "-c:v", "mpeg4", "-an"),
    ]
    for number in range(COUNT):
        ending, *options = kinds[number % len(kinds)]
        inputs = ["-f", "lavfi", "-i", f"testsrc=duration={1 + number % 3}:size=64x48:rate=5"]
        if "-an" not in options:
            inputs += ["-f", "lavfi", "-i", TONE.format(1 + number % 3, 44100), "-c:a", "aac"]
        run(
            "ffmpeg",
            "-v",
            "error",
            "-y",
            *inputs,
            "-metadata",
            f"title=film {number}",
            *options,
            f"{number:02}.{ending}",
        )


def boxes(value, result):
    """The kinds and sizes of all boxes."""
    if isinstance(value, dict):
        if "kind" in value and "short_size" in value:
            result.append((value["kind"].to_bytes(4, "big").decode("latin-1"), value["short_size"]))
        for it in value.values():
            boxes(it, result)
    elif isinstance(value, list):
        for it in value:
            boxes(it, result)
    return result


def mp4(value, _):
    return {"boxes": sorted(it for it in boxes(value, []) if it[0] in MP4)}


MP4 = (
    "ftyp",
    "moov",
    "mvhd",
    "trak",
    "tkhd",
    "mdia",
    "mdhd",
    "hdlr",
    "minf",
    "stbl",
    "stsd",
    "stts",
    "stsc",
    "stsz",
    "stco",
    "mdat",
    "moof",
    "traf",
    "tfhd",
    "trun",
)


def mp4_by_tool(file):
    done = subprocess.run(["ffprobe", "-v", "trace", file], capture_output=True, text=True, errors="replace")
    told = re.findall(r"type:'(....)' parent:'(....)' sz: (\d+)", done.stderr)
    # (the pickle has the notes in `meta` as bytes)
    return {"boxes": sorted((kind, int(size)) for kind, parent, size in told if kind in MP4 and parent != "meta")}


FORMATS = {
    "mp4": Format("mp4", "Mp4", make_mp4, mp4, mp4_by_tool),
}
