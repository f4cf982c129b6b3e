"""A small disk that Debian's tools make: a partition table, a file system of ext4, one of squashfs, and loose files."""
import os
import shutil
import subprocess

PICKLES = os.path.join(os.path.dirname(os.path.abspath(__file__)), "..", "..", "pickles")
PATHS = f"{os.environ['PATH']}:/usr/sbin:/sbin"
TOOLS = ("sfdisk", "mke2fs", "mksquashfs", "gzip")
SECTOR = 512
SECTORS = 1536
# The first sector of each partition, and how many it has.
EXT4 = (64, 1024)
SQUASHFS = (1152, 128)
LOOSE = 1344  # the first sector of the files in no partition
TABLE = "label: dos\nunit: sectors\n" + "".join(f"start={start}, size={size}, type=83\n" for start, size in (EXT4, SQUASHFS))
# The samples of pickles. A file of text is in each file system too, and gzip packs the first.
ON_EXT4 = ("elf64.o", "gif.gif", "png.png", "zip.zip")
ON_SQUASHFS = ("fdt.dtb", "png.png")
TEXT = "".join(f"line {number} of some notes\n" for number in range(300))


def lacking():
    """The first tool that this machine lacks, or None."""
    return next((it for it in TOOLS if not shutil.which(it, path=PATHS)), None)


def run(*words, **more):
    environment = {**os.environ, "PATH": PATHS, "LC_ALL": "C"}
    return subprocess.run(words, check=True, capture_output=True, env=environment, **more).stdout


def content(path):
    with open(path, "rb") as file:
        return file.read()


def folder_of(path, names):
    """Makes a folder with samples and the file of text."""
    os.makedirs(path)
    for name in names:
        shutil.copy(f"{PICKLES}/{name}", path)
    with open(f"{path}/notes.txt", "w", encoding="ascii") as file:
        file.write(TEXT)
    return path


def parts(scratch):
    """The content of each part of the disk after the partition table, by its first sector."""
    folder = folder_of(f"{scratch}/some", ON_EXT4)
    loose = run("gzip", "-9nc", f"{folder}/notes.txt") + content(f"{PICKLES}/png.png")
    run("mke2fs", "-q", "-t", "ext4", "-d", folder, f"{scratch}/ext4", f"{EXT4[1] * SECTOR // 1024}k")
    run("mksquashfs", folder_of(f"{scratch}/others", ON_SQUASHFS), f"{scratch}/squashfs", "-nopad", "-no-progress")
    return {EXT4[0]: content(f"{scratch}/ext4"), SQUASHFS[0]: content(f"{scratch}/squashfs"), LOOSE: loose}


def make(scratch):
    """Makes the disk in a folder. Returns its path, and the start, the size and the name of each thing in it, in order.

    The name is that of a format or of a sample. What a tool compressed isn't listed, nor is a gzip file.
    """
    path, made = f"{scratch}/disk", parts(scratch)
    with open(path, "wb") as file:
        for sector, part in made.items():
            file.seek(sector * SECTOR)
            file.write(part)
        file.truncate(SECTORS * SECTOR)
    run("sfdisk", "--quiet", path, input=TABLE.encode())
    return path, sorted([(0, sum(SQUASHFS) * SECTOR, "mbr"), *things(made)])


def things(made):
    for sector, name in ((EXT4[0], "ext4"), (SQUASHFS[0], "squashfs")):
        yield sector * SECTOR, len(made[sector]), name
    for sector, names in ((EXT4[0], ON_EXT4), (LOOSE, ("png.png",))):
        for name in names:
            sample = content(f"{PICKLES}/{name}")
            yield sector * SECTOR + made[sector].index(sample), len(sample), name
