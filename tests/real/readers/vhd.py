"""VHD: growing and fixed images that qemu-img makes and describes."""

import json
import os
import random

from common import COUNT, Format, run


def make_vhd():
    for number in range(COUNT):
        with open("raw", "wb") as raw:
            raw.truncate((1 << 20) * (number + 1))
            if number % 2:
                raw.seek(4096 * number)
                raw.write(random.randbytes(5000))
        run("qemu-img", "convert", "-f", "raw", "-O", "vpc", "-o", "subformat=dynamic", "raw", f"{number:02}.vhd")
    os.remove("raw")


def vhd(value, file):
    taken = sum(it["magnitude"] != 0xFFFFFFFF for it in value["table"])
    return {"size": value["footer"]["size"]["magnitude"], "blocks": taken, "kind": value["footer"]["kind"]}


def vhd_by_tool(file):
    mapped = json.loads(run("qemu-img", "map", "--output=json", "-f", "vpc", file))
    blocks = {
        place >> 21 for it in mapped if it["data"] for place in range(it["start"], it["start"] + it["length"], 512)
    }
    return {
        "size": json.loads(run("qemu-img", "info", "--output=json", "-f", "vpc", file))["virtual-size"],
        "blocks": len(blocks),
        "kind": 3,
    }


def make_vhd_fixed():
    for number in range(COUNT):
        kind = f"subformat=fixed,force_size={('on', 'off')[number % 2]}"
        run("qemu-img", "create", "-q", "-f", "vpc", "-o", kind, f"{number:02}.vhd", f"{1 + number * number * 400}k")


def vhd_fixed(value, _):
    return {"size": value["footer"]["size"]["magnitude"]}


def vhd_fixed_by_tool(file):
    return {"size": json.loads(run("qemu-img", "info", "--output=json", "-f", "vpc", file))["virtual-size"]}


FORMATS = {
    "vhd": Format("vhd", "Vhd", make_vhd, vhd, vhd_by_tool),
    "vhd_fixed": Format("vhd", "Fixed", make_vhd_fixed, vhd_fixed, vhd_fixed_by_tool),
}
