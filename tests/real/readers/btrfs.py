"""Btrfs: volumes that mkfs.btrfs makes, compared with btrfs's dump-super."""

import re

from common import COUNT, Format, empty, found, run, text, uuid


def make_btrfs():
    for number in range(COUNT):
        empty(f"{number:02}.img", (120 << 20) + (number << 22))
        mixed = number % 5 == 0
        node, total = (
            4096 if mixed else (4096, 16384, 65536)[number % 3],
            ("crc32c", "xxhash", "sha256", "blake2")[number % 4],
        )
        run(
            "mkfs.btrfs",
            "-q",
            "-n",
            node,
            "--csum",
            total,
            "-L",
            f"disk{number}",
            *(["-M"] if mixed else []),
            f"{number:02}.img",
        )


BTRFS = {
    "generation": "generation",
    "root": "root",
    "chunk_root": "chunk_root",
    "log_root": "log_root",
    "num_devices": "device_count",
    "csum_type": "sum_kind",
    "chunk_root_generation": "chunk_root_generation",
    "root_level": "root_level",
    "chunk_root_level": "chunk_root_level",
    "cache_generation": "cache_generation",
}


def btrfs(value, _):
    block = value["superblock"]
    facts = {name: block[ours] for name, ours in BTRFS.items()}
    sizes = {
        "total_bytes": "total",
        "bytes_used": "used",
        "sectorsize": "sector",
        "nodesize": "node",
        "sys_array_size": "chunks_size",
    }
    facts |= {name: block[ours]["magnitude"] for name, ours in sizes.items()}
    return facts | {
        "fsid": uuid(block["identity"]),
        "label": text(block["name"]),
        "dev_item.uuid": uuid(block["device"]["identity"]),
    }


def btrfs_by_tool(file):
    printed = run("btrfs", "inspect-internal", "dump-super", file)
    numbers = [*BTRFS, "total_bytes", "bytes_used", "sectorsize", "nodesize", "sys_array_size"]
    facts = {name: int(found(rf"^{name}\s+(\d+)", printed)) for name in numbers}
    return facts | {name: found(rf"^{re.escape(name)}\s+(\S+)", printed) for name in ("fsid", "label", "dev_item.uuid")}


FORMATS = {
    "btrfs": Format("btrfs", "Btrfs", make_btrfs, btrfs, btrfs_by_tool, ("--endian", "little")),
}
