"""ext2, ext3 and ext4: volumes that mkfs makes, compared with dumpe2fs."""

import re

from common import COUNT, Format, empty, run
from uuid import UUID


def make_ext4():
    """Of other blocks, inodes and features, with reserved space, labels, and files on some."""
    for number in range(COUNT):
        name = f"{number:02}.img"
        empty(name, (3 << 20) + (number << 18) + (200 << 20) * (number % 10 == 9))
        more = ["-b", (1024, 2048, 4096)[number % 3], "-I", (128, 256, 512)[number // 3 % 3], "-m", number % 5]
        more += ["-L", f"disk {number}", "-i", 4096 + number * 100]
        features = [[], ["-O", "^has_journal"], ["-O", "^64bit,^metadata_csum"], ["-O", "metadata_csum,64bit"]]
        features += [["-O", "^flex_bg,^resize_inode"], ["-E", "stride=4,stripe_width=16"], ["-O", "inline_data"]]
        kind = ("ext4", "ext2", "ext3", "ext4")[number % 4]
        feature = features[number % 7] if kind == "ext4" else []
        more += feature if "inline_data" not in feature or number // 3 % 3 else []  # inodes of 128 bytes have no room
        run("mkfs", "-q", "-F", "-t", kind, *more, name)
        run("tune2fs", "-e", ("continue", "remount-ro", "panic")[number % 3], "-c", number, name)


SHOWN = {
    "Inode count": "inodes",
    "Reserved block count": "reserved_blocks_low",
    "Free blocks": "free_blocks_low",
    "Free inodes": "free_inodes",
    "First block": "first_block",
    "Blocks per group": "group_blocks",
    "Inodes per group": "group_inodes",
    "Mount count": "mounts",
    "Maximum mount count": "most_mounts",
    "First inode": "first_inode",
    "Block count": "blocks_low",
}


def ext4(value, _):
    block = value["start"]["superblock"]
    facts = {name: block[ours] for name, ours in SHOWN.items()}
    facts["Block size"] = 1024 << block["block_size_log"]
    facts["Inode size"] = block["inode_size"]["magnitude"]
    facts["UUID"] = str(UUID(bytes=bytes(block["identity"]["bytes"])))
    facts["label"] = bytes(block["name"]).split(b"\0")[0].decode()
    facts["errors"] = ("", "Continue", "Remount read-only", "Panic")[block["on_errors"]]
    facts["groups"] = [
        tuple(it[of] for of in ("block_bitmap_low", "inode_bitmap_low", "inode_table_low")) for it in value["start"]["groups"]
    ]
    return facts


def ext4_by_tool(file):
    printed = run("dumpe2fs", file)
    of = lambda name: re.search(rf"^{name}:\s+(.*)$", printed, re.M)[1]
    facts = {name: int(of(name)) for name in [*SHOWN, "Block size", "Inode size"]}
    facts |= {"UUID": of("Filesystem UUID"), "label": of("Filesystem volume name"), "errors": of("Errors behavior")}
    pattern = r"Block bitmap at (\d+).*\n? *(?:,? *)Inode bitmap at (\d+).*\n *Inode table at (\d+)"
    facts["groups"] = [tuple(map(int, it)) for it in re.findall(pattern, printed)]
    return facts


FORMATS = {"ext4": Format("ext4", "Device", make_ext4, ext4, ext4_by_tool, ("--endian", "little"))}
