"""Intel microcode of Debian's package, compared with iucode_tool."""

import os
import re
import shutil
from glob import glob

from common import Format, found, run, take


def make_microcode():
    """Debian's package, by an index of its own, since it isn't in the main section."""
    os.makedirs("lists/partial")
    of = found(r"^VERSION_CODENAME=(\w+)", run("cat", "/etc/os-release"))
    with open("list", "w") as file:
        file.write(f"deb http://deb.debian.org/debian {of} non-free-firmware\n")
    here = os.getcwd()
    lists = ("Etc::sourcelist", f"{here}/list"), ("Etc::sourceparts", "-"), ("State::lists", f"{here}/lists")
    apt = ["apt-get", "-q", *(f"-oDir::{name}={it}" for name, it in lists)]
    run(*apt, "update")
    run(*apt, "download", "intel-microcode")
    shutil.rmtree("lists")
    os.remove("list")
    (package,) = glob("*.deb")
    run("dpkg", "-x", package, "from")
    os.remove(package)
    take("intel-ucode/*")


def processor(it):
    number = 0
    for name, size in zip(it, (4, 8, 4, 2, 2, 4, 4, 4)):
        number = number << size | it[name]
    return number


def microcode(value, _):
    return {
        "updates": [
            (
                processor(it["processor"]),
                it["platforms"],
                f"{it['year']:04x}-{it['month']:02x}-{it['day']:02x}",
                it["revision"],
                it["total"]["magnitude"] or 2048,
            )
            for it in value["updates"]
        ],
        "others": [
            (processor(of["processor"]), of["platforms"])
            for it in value["updates"]
            for of in it.get("more", {"others": []})["others"]
        ],
    }


def microcode_by_tool(file):
    printed = run("/usr/sbin/iucode_tool", "-tb", "-L", file)
    told = re.findall(r"sig 0x(\w+), pf_mask 0x(\w+)(?:, (\S+), rev 0x(\w+), size (\d+))?", printed)
    number = lambda it: int(it, 16)
    return {
        "updates": [
            (number(sig), number(mask), date, number(revision), int(size))
            for sig, mask, date, revision, size in told
            if date
        ],
        "others": [(number(sig), number(mask)) for sig, mask, date, *_ in told if not date],
    }


FORMATS = {
    "microcode": Format("microcode", "Updates", make_microcode, microcode, microcode_by_tool, ("--endian", "little")),
}
