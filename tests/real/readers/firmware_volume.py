"""UEFI firmware volumes of Debian's packages, compared with UEFIExtract."""

import lzma
import os
import re
import shutil
import struct
from glob import glob
from uuid import UUID

from common import Format, run, versions


LZMA = UUID("ee4e5898-3914-4259-9d6e-dc7bd79403cf").bytes_le


def volumes(data):
    """The firmware volumes of an image, and those in its packed sections."""
    for it in re.finditer(b"_FVH", data):
        start = it.start() - 40
        (length,), (size,) = struct.unpack_from("<Q", data, start + 32), struct.unpack_from("<H", data, start + 48)
        if length <= len(data) - start and size >= 72:
            if sum(struct.unpack_from(f"<{size // 2}H", data, start)) & 0xFFFF == 0:
                yield data[start : start + length]
    for it in re.finditer(re.escape(LZMA), data):
        (at,) = struct.unpack_from("<H", data, it.end())
        try:
            packed = data[it.start() - 4 + at :]
            yield from volumes(lzma.LZMADecompressor(format=lzma.FORMAT_ALONE).decompress(packed))
        except lzma.LZMAError:  # those bytes in a program
            pass


def make_firmware_volume():
    names = "ovmf", "ovmf-ia32", "qemu-efi-aarch64", "qemu-efi-arm", "qemu-efi-loongarch64", "qemu-efi-riscv64"
    versions(*names, of=("bookworm", "trixie", "sid"))
    seen = {}
    for image in sorted(glob("from/**/*.fd", recursive=True)):
        with open(image, "rb") as file:
            for it in volumes(file.read()):
                seen.setdefault(it, os.path.basename(image))
    for number, (data, name) in enumerate(seen.items()):
        with open(f"{number:02}-{name}.fv", "wb") as file:
            file.write(data)
    shutil.rmtree("from")


PRINTED = 1000  # elements of an array: more than the files, the variables or the letters of a name


def count(elements):
    """How many elements an array has, of which the first are printed."""
    more = elements[-1].get("..", 1) if elements and isinstance(elements[-1], dict) else 1
    return len(elements) - 1 + more if elements else 0


def identity(it):
    tail = bytes(it["d"]).hex()
    return f"{it['a']:08x}-{it['b']:04x}-{it['c']:04x}-{tail[:4]}-{tail[4:]}".upper()


FIRMWARE = ["", "Raw", "Freeform", "SEC core", "PEI core", "DXE core", "PEI module", "DXE driver"]


FIRMWARE += ["Combined PEI/DXE", "Application", "SMM module", "Volume image", "Combined SMM/DXE", "SMM core"]


def firmware_volume(value, _):
    """Its files or variables, with their places and sizes, and the free space behind them."""
    it = value["volume"]
    head, form = it["header"], "files" if "files" in it else "variables"
    at, extension = head["size"]["magnitude"], head["extension_at"]["magnitude"]
    facts = {"form": form, "size": head["length"]["magnitude"], "parts": []}
    if form == "files":
        for of in it["files"]:
            size, kind = of["size"]["magnitude"], "Pad" if of["kind"] == 0xF0 else FIRMWARE[of["kind"]]
            # (the other reader leaves out the filling that has the volume's second header)
            if not at < extension < at + size:
                facts["parts"].append((kind, at, size, identity(of["name"]) if kind != "Pad" else "Padding file"))
            at += (size + 7) // 8 * 8
        # (nor does it tell free space that is shorter than the header of a file)
        free = count(it["free"]) * 8 if count(it["free"]) > 2 else 0
    else:
        at += 28
        for of in it["store"]["variables"]:
            size = 60 + of["name_size"]["magnitude"] + of["data_size"]["magnitude"]
            name = struct.pack(f"<{len(of['name'])}H", *of["name"]).decode("utf-16le").rstrip("\0")
            used = ("Auth", at, size, f"{identity(of['vendor'])} | {name}")
            facts["parts"].append(used if of["state"] == 0x3F else ("Invalid", at, size, "Invalid"))
            at += (size + 3) // 4 * 4
        free = count(it["store"]["free"])
    return facts | {"free": (at, free) if free else ()}


def firmware_volume_by_tool(file):
    run("UEFIExtract", file, "report")
    with open(f"{file}.report.txt") as report:
        told = report.read()
    os.remove(f"{file}.report.txt")
    form, size = re.search(r"^ Volume +\| (\S+) +\| 00000000 \| (\w+) \| \w+ \| - ", told, re.M).groups()
    depth = "---" if form == "NVRAM" else "--"
    pattern = rf"^ (?:File|VSS entry) +\| (.*?) +\| (\w+) +\| (\w+) +\| \w+ \| {depth} (.*?)$"
    free = re.search(rf"^ Free space +\| +\| (\w+) +\| (\w+) +\| \w+ \| {depth} ", told, re.M)
    return {
        "form": "variables" if form == "NVRAM" else "files",
        "size": int(size, 16),
        "parts": [
            (kind, int(at, 16), int(size, 16), name if form == "NVRAM" else name.split(" | ")[0])
            for kind, at, size, name in re.findall(pattern, told, re.M)
        ],
        "free": tuple(int(it, 16) for it in free.groups()) if free else (),
    }


FORMATS = {
    "firmware_volume": Format(
        "firmware_volume",
        "WholeVolume",
        make_firmware_volume,
        firmware_volume,
        firmware_volume_by_tool,
        ("--endian", "little", "--elements", str(PRINTED)),
    ),
}
