"""squashfs: images that mksquashfs makes, compared with unsquashfs."""

import os
import random
import re
import shutil

from common import COUNT, Format, found, run


def make_squashfs():
    kinds = ("gzip", "lzo", "lz4", "xz", "zstd", "lzma")
    more = (["-no-exports"], ["-noI", "-noD"], ["-no-fragments"], ["-noF", "-always-use-fragments"], ["-noId"])
    for number in range(COUNT):
        os.makedirs("from/below")
        for it in range(number * 7):
            with open(f"from/{'below/' * (it % 2)}{it}", "wb") as file:
                file.write(b"some text " * random.randrange(900) + random.randbytes(it * 5))
        kind = ["-comp", kinds[number % 6], "-b", 4096 << number % 9, *more[number % 5], "-no-xattrs" * (number % 2)]
        run("mksquashfs", "from", f"{number:02}.img", "-quiet", "-no-progress", *filter(None, kind))
        shutil.rmtree("from")


def squashfs(value, _):
    block = value["super"]
    flags = {name: bool(block["flags"][name]) for name in SQUASHFS}
    flags["owners_unpacked"] |= flags["inodes_unpacked"]  # as unsquashfs tells it
    return flags | {
        "size": block["used"]["magnitude"],
        "compression": ("gzip", "lzma", "lzo", "xz", "lz4", "zstd")[block["compression"] - 1],
        "block": block["block_size"]["magnitude"],
        "fragments": block["fragment_count"],
        "inodes": block["inode_count"],
        "owners": block["owner_count"],
    }


SQUASHFS = {
    "exportable": r"^Filesystem is exportable",
    "inodes_unpacked": r"^Inodes are uncompressed",
    "data_unpacked": r"^Data is uncompressed",
    "owners_unpacked": r"Id table\) are uncompressed",
    "fragments_unpacked": r"^Fragments are uncompressed",
    "no_fragments": r"^Fragments are not stored",
    "always_fragments": r"^Always-use-fragments option is specified",
    "no_attributes": r"^Xattrs are not stored",
    "no_duplicates": r"^Duplicates are removed",
}


def squashfs_by_tool(file):
    printed = run("unsquashfs", "-s", file)
    flags = {name: bool(re.search(pattern, printed, re.M)) for name, pattern in SQUASHFS.items()}
    return flags | {
        "size": int(found(r"^Filesystem size (\d+) bytes", printed)),
        "compression": found(r"^Compression (\w+)", printed),
        "block": int(found(r"^Block size (\d+)", printed)),
        "fragments": int(found(r"^Number of fragments (\d+)", printed)),
        "inodes": int(found(r"^Number of inodes (\d+)", printed)),
        "owners": int(found(r"^Number of ids (\d+)", printed)),
    }


FORMATS = {
    "squashfs": Format("squashfs", "FileSystem", make_squashfs, squashfs, squashfs_by_tool, ("--endian", "little")),
}
