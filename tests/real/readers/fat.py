"""FAT: volumes that mkfs.fat and mtools make, compared with mtools."""

import os
import random
import re
import struct

from common import COUNT, Format, empty, found, run


def make_fat():
    for number in range(COUNT):
        kind, size = ((12, 360 << 10), (16, 5 << 20), (32, 40 << 20), (12, 1440 << 10))[number % 4]
        name = f"{number:02}.img"
        empty(name, size + (number % 20 << 16))
        more = ["-s", 1 if kind > 12 else 2 << number % 3]
        small = [["-r", 112 + 16 * (number % 20)], ["-f", 1], ["-h", number]][number % 3]
        more += small if kind < 32 else ["-R", 8 + number]
        run("mkfs.fat", "-F", kind, *more, *(["-n", f"DISK {number}"] if number % 3 else []), name)
        run("mmd", "-i", name, "::folder", "::A Folder With A Long Name")
        for it in range(number % 20 * 3):
            with open("file", "wb") as file:
                file.write(random.randbytes(it * 100))
            target = (f"FILE{it}.TXT", f"a long name of file {it}.text", f"low{it}.txt", f"Two.Dots.{it}")[it % 4]
            run("mcopy", "-i", name, "file", f"::{target}")
            if it % 7 == 6:
                run("mdel", "-i", name, f"::{target}")
    os.remove("file")


FAT = {
    "sector size": ("sector", "magnitude"),
    "cluster size": ("cluster_sectors",),
    "reserved (boot) sectors": ("reserved_sectors",),
    "fats": ("tables",),
    "max available root directory slots": ("root_entries",),
    "small size": ("sectors_small",),
    "sectors per track": ("track_sectors",),
    "heads": ("heads",),
    "hidden sectors": ("hidden_sectors",),
}


def roots(volume):
    """The entries of a root directory: the parts of each long name, and the short entry."""
    slots = volume.get("root", [])
    more = volume.get("long_root")
    while more:
        slots, more = slots + more["slots"], more.get("more")
    parts = []
    for it in slots:
        if "part" in it:
            parts.append(it["part"])
        elif "file" in it:
            yield it["file"]["parts"], it["file"]["short"]
        elif "short" in it:
            yield parts, it["short"]
            parts = []


def name_in_fat(parts, short):
    units = [unit for it in reversed(parts) for unit in it["first"] + it["second"] + it["third"]]
    if units:
        return struct.pack(f"<{len(units)}H", *units).decode("utf-16-le").split("\0")[0]
    name, ending = (bytes(short["name"][at]).decode("latin-1").rstrip() for at in (slice(8), slice(8, 11)))
    name = name.lower() if short["lower_case"] & 8 else name
    ending = ending.lower() if short["lower_case"] & 16 else ending
    return f"{name}.{ending}" if ending else name


def fat(value, _):
    ((_, volume),) = value["volume"].items()
    facts = {"serial": volume["boot"]["serial"], "label": bytes(volume["boot"]["label"]).decode()}
    for name, path in FAT.items():
        it = volume["boot"]
        for step in path:
            it = it[step]
        facts[name] = it
    facts["table"] = volume["boot"].get("table_sectors_large") or volume["boot"]["table_sectors"]
    for parts, short in roots(volume):
        if not short["attributes"]["volume"]:
            size = "<DIR>" if short["attributes"]["directory"] else short["size"]["magnitude"]
            date = short["written_date"]
            day = f"{date['years_since_1980'] + 1980}-{date['month']:02}-{date['day']:02}"
            facts[name_in_fat(parts, short)] = [size, day, short["cluster_high"] << 16 | short["cluster"]]
    return facts


def fat_by_tool(file):
    printed = run("minfo", "-i", file, "::").split("bootsector information")[1]
    facts = {name: int(found(rf"^{re.escape(name)}: (\d+)", printed)) for name in FAT}
    facts["serial"] = int(found(r"serial number: (\w+)", printed), 16)
    facts["label"] = re.search(r'disk label="(.{11})"', printed)[1]
    facts["table"] = int(found(r"(?:sectors per fat: |Big fatlen=)([1-9]\d*)", printed))
    listed = run("mdir", "-a", "-i", file, "::")
    pattern = r"^(.{8}) (.{3}) +(<DIR>|\d+) +(\d{4}-\d\d-\d\d) +\d+:\d\d ?(.*)$"
    for name, ending, size, day, long in re.findall(pattern, listed, re.M):
        short = f"{name.rstrip()}.{ending.rstrip()}".rstrip(".")
        shown = long.strip() or short
        cluster = found(r"<(\d+)", run("mshowfat", "-i", file, f"::{shown}")) or 0
        facts[shown] = [size if size == "<DIR>" else int(size), day, int(cluster)]
    return facts


FORMATS = {
    "fat": Format("fat", "Fat", make_fat, fat, fat_by_tool, ("--endian", "little")),
}
