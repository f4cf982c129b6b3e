"""XFS: volumes that mkfs.xfs makes, compared with xfs_db."""

from common import COUNT, Format, empty, found, run, text, uuid


def make_xfs():
    for number in range(COUNT):
        empty(f"{number:02}.img", (300 << 20) + (number << 22))
        inode, block = (512, 1024, 2048)[number % 3], (1024, 4096)[number % 2]
        more = [["-m", "bigtime=0"], ["-m", "rmapbt=1"], ["-m", "crc=0,finobt=0"], ["-m", "reflink=0"]][number % 4]
        inode = 256 if number % 4 == 2 else min(inode, block // 2)
        run(
            "mkfs.xfs",
            "-q",
            "-L",
            f"disk{number}",
            "-i",
            f"size={inode}",
            "-b",
            f"size={block}",
            *more,
            f"{number:02}.img",
        )


XFS = {
    "blocksize": ("block", "magnitude"),
    "dblocks": ("blocks",),
    "rblocks": ("realtime_blocks",),
    "logstart": ("log_start",),
    "rootino": ("root_inode",),
    "agblocks": ("group_blocks",),
    "agcount": ("groups",),
    "logblocks": ("log_blocks",),
    "sectsize": ("sector", "magnitude"),
    "inodesize": ("inode", "magnitude"),
    "inopblock": ("block_inodes",),
    "blocklog": ("block_log",),
    "icount": ("inodes",),
    "ifree": ("free_inodes",),
    "fdblocks": ("free_blocks",),
    "inoalignmt": ("inode_alignment",),
    "dirblklog": ("directory_block_log",),
    "imax_pct": ("most_inodes_percent",),
}


def xfs(value, _):
    block = value["superblock"]
    facts = {"uuid": uuid(block["identity"]), "fname": text(block["name"])}
    for name, path in XFS.items():
        it = block
        for step in path:
            it = it[step]
        facts[name] = it
    return facts


def xfs_by_tool(file):
    printed = run("xfs_db", "-r", "-c", "sb 0", "-c", "print", file)
    facts = {"uuid": found(r"^uuid = (\S+)", printed), "fname": found(r'^fname = "(\w*)', printed)}
    return facts | {name: int(found(rf"^{name} = (\d+)", printed)) for name in XFS}


FORMATS = {
    "xfs": Format("xfs", "Xfs", make_xfs, xfs, xfs_by_tool),
}
