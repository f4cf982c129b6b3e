"""cpio: archives that cpio and bsdtar make, compared with what cpio lists."""

import os
import random
import re
import shutil
import stat
from datetime import datetime, timezone

from common import COUNT, Format, run


def make_cpio():
    for number in range(COUNT):
        os.makedirs("from/below")
        for it in range(number % 17):
            with open(f"from/{'below/' * (it % 2)}{'long' * (it % 3 * 9)}{it}", "wb") as file:
                file.write(random.randbytes(number * it * 3))
        os.symlink("0", "from/link")
        os.mkfifo("from/pipe", 0o640)
        os.chmod("from/below", 0o1777 if number % 2 else 0o700)
        if number % 3 == 2:
            run("bsdtar", "--format", "newc", "-cf", f"{number:02}.cpio", "from")
        else:
            names = run("find", "from", "-depth")
            more = ["-R", f"{number}:{number + 7}"] if number % 4 else []
            form = ("newc", "crc")[number % 3]
            run("cpio", "--quiet", "-o", "-H", form, *more, "-F", f"{number:02}.cpio", input=names)
        shutil.rmtree("from")


def cpio(value, _):
    facts = {"entries": []}
    for it in (of["entry"] for of in value["part"]["entries"]):
        number = lambda name: int(bytes(it[name]["digits"]), 16)
        shown = it["name"]
        if stat.S_ISLNK(number("mode")):
            shown += f" -> {bytes(it['data']).decode()}"
        when = datetime.fromtimestamp(number("time"), timezone.utc)
        owners = [number("links"), number("user"), number("group"), number("size")]
        facts["entries"].append([stat.filemode(number("mode")), *owners, when.strftime("%b %d"), shown])
    return facts


def cpio_by_tool(file):
    printed = run("cpio", "--quiet", "-itvn", "-F", file, env=os.environ | {"TZ": "UTC", "LC_ALL": "C"})
    pattern = r"^(\S{10}) +(\d+) (\d+) +(\d+) +(\d+) (\w+ +\d+) +\S+ (.*)$"
    told = re.findall(pattern, printed, re.M)
    return {"entries": [[mode, *map(int, numbers), day, name] for mode, *numbers, day, name in told]}


FORMATS = {"cpio": Format("cpio", "Archive", make_cpio, cpio, cpio_by_tool)}
