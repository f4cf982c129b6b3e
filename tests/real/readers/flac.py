"""FLAC: sounds that ffmpeg makes, compared with metaflac."""

import re

from common import COUNT, Format, found, run
from sounds import make_sounds


def make_flac():
    make_sounds([("flac",), ("flac", "-ac", "2"), ("flac", "-compression_level", "12"), ("flac", "-sample_fmt", "s16")])
    for number in range(0, COUNT, 3):
        run("metaflac", "--add-padding=100", f"--set-tag=place={number}", "--add-seekpoint=1x", f"{number:02}.flac")


def flac(value, _):
    stream = value["first"]["stream"]
    blocks = [
        value["first"],
        *(it["block"] for it in value["blocks"]),
        *([value["last_block"]] if "last_block" in value else []),
    ]
    return {
        "blocks": [(it["kind"], it["length"]["magnitude"]) for it in blocks],
        "rate": stream["rate"],
        "channels": stream["channels"] + 1,
        "bits": stream["sample_bits"] + 1,
        "samples": stream["samples"],
        "sum": bytes(stream["sum"]).hex(),
    }


def flac_by_tool(file):
    printed = run("metaflac", "--list", file)
    kinds = [int(it) for it in re.findall(r"^  type: (\d+)", printed, re.M)]
    lengths = [int(it) for it in re.findall(r"^  length: (\d+)", printed, re.M)]
    return {
        "blocks": list(zip(kinds, lengths)),
        "rate": int(found(r"sample_rate: (\d+)", printed)),
        "channels": int(found(r"channels: (\d+)", printed)),
        "bits": int(found(r"bits-per-sample: (\d+)", printed)),
        "samples": int(found(r"total samples: (\d+)", printed)),
        "sum": found(r"MD5 signature: (\w+)", printed),
    }


FORMATS = {
    "flac": Format("flac", "Flac", make_flac, flac, flac_by_tool),
}
