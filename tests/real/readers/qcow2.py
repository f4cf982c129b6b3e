"""qcow2: images that qemu-img makes and describes."""

import json
import os
import random
import shutil
from glob import glob

from common import COUNT, Format, run


def make_qcow2():
    """Of each width of counts, with snapshots, shrunk, packed, on another file, and with clusters that were freed."""
    for number in range(COUNT):
        name, bits = f"{number:02}.img", number % 7
        with open("raw", "wb") as raw:
            raw.truncate((3 << 20) + number * 9000)
            raw.seek(50_000 * number)
            raw.write(random.randbytes(40_000 * number))
        more = [f"compat={('1.1', '0.10')[number % 6 == 5]}", f"cluster_size={512 << number % 13}"]
        more += [f"refcount_bits={1 << bits}", f"lazy_refcounts={('off', 'on')[number % 2]}"] * (number % 6 != 5)
        if number % 5 == 4:
            shutil.copy("raw", f"{number:02}.of")
            more += [f"backing_file={number:02}.of", "backing_fmt=raw"]
            run("qemu-img", "create", "-q", "-f", "qcow2", "-o", ",".join(more), name)
        else:
            packed = ["-c"] * (number % 4 == 3)
            run("qemu-img", "convert", *packed, "-f", "raw", "-O", "qcow2", "-o", ",".join(more), "raw", name)
        changes = [f"write -P {number} 1M {number * 3000}", f"discard {number * 4}k 128k", "write -z 2M 256k"]
        for it in changes[: number % 4]:
            run("qemu-io", "-f", "qcow2", "-c", it, name)
        if number % 3 == 2 and bits > 0:
            for it in range(number % 4):
                run("qemu-img", "snapshot", "-c", f"snapshot {it}", name)
                run("qemu-io", "-f", "qcow2", "-c", f"write -P {it} {it * 70}k 90k", name)
        elif number % 5 == 3:
            run("qemu-img", "resize", "-q", "-f", "qcow2", "--shrink", name, "1M")
    for it in ["raw", *glob("*.of")]:
        os.remove(it)


def qcow2(value, _):
    head = value["header"]
    shots = [it["snapshot"] for it in value.get("snapshots", [])] + [*filter(None, [value.get("last_snapshot")])]
    return {
        "version": head["version"],
        "size": head["size"]["magnitude"],
        "cluster": 1 << head["cluster_bits"],
        "count bits": 1 << head["more"]["count_width"] if "more" in head else 16,
        "lazy": bool(head["more"]["compatible"] & 1) if "more" in head else False,
        "backing": bytes(value.get("backing", [])).decode(),
        "snapshots": [bytes(it["name"]).decode() for it in shots],
    }


def qcow2_by_tool(file):
    told = json.loads(run("qemu-img", "info", "--output=json", "-f", "qcow2", file))
    more = told["format-specific"]["data"]
    return {
        "version": {"0.10": 2, "1.1": 3}[more["compat"]],
        "size": told["virtual-size"],
        "cluster": told["cluster-size"],
        "count bits": more["refcount-bits"],
        "lazy": more.get("lazy-refcounts", False),
        "backing": told.get("backing-filename", ""),
        "snapshots": [it["name"] for it in told.get("snapshots", [])],
    }


FORMATS = {
    "qcow2": Format("qcow2", "Qcow2", make_qcow2, qcow2, qcow2_by_tool),
}
