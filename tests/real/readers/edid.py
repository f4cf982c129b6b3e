"""EDID: those in the sources of edid-decode, compared with what it prints."""

import re
import subprocess

from common import Format, found, sources, take, text


def make_edid():
    sources("edid-decode")
    take("data/*")


def timing(it):
    """The places of a detailed timing: across, down, and its clock."""
    width, height = it["width_high"] << 8 | it["width_low"], it["height_high"] << 8 | it["height_low"]
    height <<= it["flags"]["interlaced"]  # of both halves, as edid-decode tells it
    front, pulse = it["front_high"] << 8 | it["front_low"], it["pulse_high"] << 8 | it["pulse_low"]
    lines = it["lines_front_high"] << 4 | it["lines_front_low"], it["lines_pulse_high"] << 4 | it["lines_pulse_low"]
    size = [it[f"{of}_millimetres_high"] << 8 | it[f"{of}_millimetres_low"] for of in ("width", "height")]
    return [width, height, it["clock"], front, pulse, *lines, *size]


def edid(value, _):
    maker = "".join(chr(64 + value["maker"][of]) for of in ("first", "second", "third"))
    digital, form = value["input"]["digital"], value["input"]["form"]
    facts = {
        "maker": maker,
        "product": value["product"],
        "version": f"{value['version']}.{value['revision']}",
        "digital": bool(digital),
        "blocks": [it["kind"] for it in value["blocks"]],
        "gamma": f"{(value['gamma'] + 100) / 100:.2f}" if value["gamma"] != 0xFF else "",
        "size": [value["width_centimetres"], value["height_centimetres"]],
        "sums": [value["sum"], *(it["sum"] for it in value["blocks"])],
        "timings": [timing(it["timing"]) for it in value["descriptors"] if "timing" in it],
    }
    for kind, name in ((0xFC, "names"), (0xFF, "numbers"), (0xFE, "texts")):
        of = [it["other"]["content"] for it in value["descriptors"] if it.get("other", {}).get("kind") == kind]
        facts[name] = [text(it).split("\n")[0].rstrip() for it in of]
    return facts


def edid_by_tool(file):
    """What it says of the base block, and each block's name and sum."""
    done = subprocess.run(["edid-decode", "-s", file], capture_output=True, text=True, errors="replace")
    base = done.stdout.split("\n\n------")[0]
    kinds = {"CTA-861": 2, "DisplayID": 0x70, "Video Timing": 0x10, "Display Information": 0x40, "Block Map": 0xF0}
    blocks = re.findall(r"^Block [1-9]\d*, (.*?) Extension Block(?: 0x(\w+))?", done.stdout, re.M)
    pattern = r"^    DTD +\d+: +(\d+)x(\d+)i? .*? ([\d.]+) MHz(?: \(.*?(\d+) mm x (\d+) mm)?.*\n"
    pattern += r" +Hfront +(-?\d+) Hsync +(\d+).*\n +Vfront +(-?\d+) Vsync +(\d+)"
    timings = re.findall(pattern, base, re.M)
    size = re.search(r"Maximum image size: (\d+) cm x (\d+) cm", base)
    facts = {
        "maker": found(r"Manufacturer: (\w+)", base),
        "product": int(found(r"Model: (\d+)", base)),
        "version": found(r"Version & Revision: ([\d.]+)", base),
        "digital": "Digital display" in base,
        "blocks": [int(number, 16) if number else kinds.get(it, it) for it, number in blocks],
        "gamma": found(r"Gamma: ([\d.]+)", base),
        "size": [int(it) for it in size.groups()] if size else [0, 0],
        "sums": [int(it, 16) for it in re.findall(r"^Checksum: 0x(\w+)", done.stdout, re.M)],
        "timings": [
            [int(width), int(height), round(float(clock) * 100), *(int(it or 0) for it in (*rest, across, down))]
            for width, height, clock, across, down, *rest in timings
        ],
    }
    for name, shown in (("names", "Product Name"), ("numbers", "Product Serial Number"), ("texts", "Data String")):
        facts[name] = re.findall(rf"^    [\w ]*{shown}: '(.*?) *'", base, re.M)
    return facts


FORMATS = {
    "edid": Format("edid", "Edid", make_edid, edid, edid_by_tool),
}
