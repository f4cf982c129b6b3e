"""bzImage: Debian's kernels for x86, compared with file."""

import shutil
from glob import glob

from common import COUNT, Format, found, packages, run, take


def make_bzimage():
    kernels = r"^linux-image-[0-9]+([.][0-9]+){2}[0-9+a-z-]*-(cloud|rt)-amd64(-unsigned)?$"
    listed = run("apt-cache", "search", "-n", kernels)
    names = sorted(it.split()[0] for it in listed.splitlines())[-COUNT + 2 :]
    packages(*names, only="./boot/vmlinuz-*")
    packages("debian-installer-12-netboot-amd64", "debian-installer-12-netboot-i386")
    for number, it in enumerate(glob("from/debian-installer*/**/linux", recursive=True)):
        shutil.move(it, f"from/vmlinuz-installer-{number}")
    take("vmlinuz-*")


def bzimage(value, _):
    return {
        "version": value["kernel_version"].split(" ")[0],
        "protocol": (value["version"]["major"], value["version"]["minor"]),
    }


def bzimage_by_tool(file):
    with open(file, "rb") as kernel:
        kernel.seek(0x206)
        minor, major = kernel.read(2)
    return {"version": found(r"version (\S+)", run("file", "-b", file)), "protocol": (major, minor)}


FORMATS = {
    "bzimage": Format("bzimage", "Kernel", make_bzimage, bzimage, bzimage_by_tool, ("--endian", "little")),
}
