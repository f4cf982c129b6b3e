"""U-Boot legacy images that mkimage makes and lists."""

import os
import random
import re
import time

from common import COUNT, Format, found, run, text


PROCESSORS = {"arm": 2, "x86": 3, "mips": 5, "ppc": 7, "sh": 9, "m68k": 12, "arm64": 22, "riscv": 26}


SYSTEMS = {"netbsd": 2, "linux": 5, "vxworks": 14, "u-boot": 17}


IMAGES = {"standalone": 1, "kernel": 2, "ramdisk": 3, "multi": 4, "firmware": 5, "script": 6, "filesystem": 7}


PACKED = {"none": 0, "gzip": 1, "bzip2": 2, "lzma": 3, "lzo": 4, "lz4": 5, "zstd": 6}


SHOWN_IN_IMAGE = {
    "x86": "Intel x86",
    "ppc": "PowerPC",
    "sh": "SuperH",
    "arm64": "AArch64",
    "riscv": "RISC-V",
    "standalone": "Standalone Program",
    "kernel": "Kernel Image",
    "ramdisk": "RAMDisk Image",
    "multi": "Multi-File Image",
    "filesystem": "Filesystem Image",
    "none": "uncompressed",
}


def make_uimage():
    at = lambda names, number: list(names)[number % len(names)]
    for number in range(COUNT):
        kind, parts = at(IMAGES, number), []
        for part in range(1 + (number // 2 % 5 if kind == "multi" else 0)):
            parts.append(f"part{part}")
            with open(parts[-1], "wb") as file:
                file.write(random.randbytes(50 + 11 * number + part))
        what = ["-A", at(PROCESSORS, number), "-O", at(SYSTEMS, number // 2), "-T", kind, "-C", at(PACKED, number)]
        places = ["-a", hex(number << 16), "-e", hex((number << 16) + 64)]
        run("mkimage", *what, *places, "-n", f"image {number}", "-d", ":".join(parts), f"{number:02}.img")
        for it in parts:
            os.remove(it)


def uimage(value, _):
    head = value["header"]
    of = lambda names, number: next(key for key, it in names.items() if it == number)
    words = of(PROCESSORS, head["processor"]), of(SYSTEMS, head["system"]), of(IMAGES, head["kind"])
    processor, system, kind, packed = (SHOWN_IN_IMAGE.get(it, it) for it in (*words, of(PACKED, head["compression"])))
    return {
        "name": text(head["name"]),
        "time": head["time"],
        "is": f"{processor} {system} {kind} ({packed})".lower(),
        "size": head["size"]["magnitude"],
        "load": head["load_address"],
        "entry": head["entry"],
        "parts": [it["size"]["magnitude"] for it in value["parts"]["sizes"]] if "parts" in value else [],
    }


def uimage_by_tool(file):
    printed = run("mkimage", "-l", file)
    created = time.strptime(found(r"^Created: +(.+)", printed))
    return {
        "name": found(r"^Image Name: +(.+)", printed),
        "time": int(time.mktime(created)),
        "is": found(r"^Image Type: +(.+)", printed).replace(" compressed)", ")").lower(),
        "size": int(found(r"^Data Size: +(\d+)", printed)),
        "load": int(found(r"^Load Address: (\w+)", printed), 16),
        "entry": int(found(r"^Entry Point: +(\w+)", printed), 16),
        "parts": [int(it) for it in re.findall(r"^   Image \d+: (\d+) Bytes", printed, re.M)],
    }


FORMATS = {
    "uimage": Format("uimage", "Image", make_uimage, uimage, uimage_by_tool),
}
