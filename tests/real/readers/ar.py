"""ar: the libraries of this machine, compared with ar and nm."""

import os
import re
import stat
import time
from calendar import timegm
from glob import glob

from common import COUNT, Format, copy, run, some


def make_ar():
    copy(some(run("find", "/usr/lib", "-name", "*.a", "-size", "-1000k").splitlines(), COUNT + 5))
    for it in glob("*.a"):
        if "archive" not in run("file", "-b", it):  # a script for the linker
            os.remove(it)


def ar(value, _):
    facts, names, at = {"members": []}, b"", 8
    for it in value["members"]:
        name = bytes(it["name"]).decode().rstrip()
        number = lambda of, base=10: int(bytes(it[of]).decode(), base)
        if name == "//":
            names = bytes(it["content"])
        elif name == "/":
            facts["symbols"] = it["symbols"]["names"]
        else:
            long = re.fullmatch(r"/(\d+)", name)
            shown = names[int(long[1]) :].split(b"/\n")[0].decode() if long else name.removesuffix("/")
            mode = stat.filemode(number("mode", 8) & 0o777)[1:]
            owners = f"{number('owner')}/{number('group')}"
            facts["members"].append((mode, owners, number("size"), number("time") // 60 * 60, shown, at + 60))
        at += 60 + number("size") + number("size") % 2
    return facts


def ar_by_tool(file):
    printed = run("ar", "tvO", file, env=os.environ | {"TZ": "UTC"})
    pattern = r"^(\S+) (\S+) +(\d+) (\w+ +\d+ \d+:\d+ \d+) (.*) 0x(\w+)$"
    facts = {
        "members": [
            (mode, owners, int(size), timegm(time.strptime(changed, "%b %d %H:%M %Y")), name, int(at, 16))
            for mode, owners, size, changed, name, at in re.findall(pattern, printed, re.M)
        ]
    }
    listed = run("nm", "--print-armap", file).split("\n\n")[0]
    if "Archive index:" in listed:
        facts["symbols"] = re.findall(r"^(\S+) in ", listed, re.M)
    return facts


FORMATS = {
    "ar": Format("ar", "Archive", make_ar, ar, ar_by_tool),
}
