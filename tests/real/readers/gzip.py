"""gzip: Debian's documents and files made here, compared with file and Python's zlib."""

import os
import random
import time
import zlib
from calendar import timegm
from glob import glob

from common import COUNT, Format, copy, found, run, some


def make_gzip():
    copy(some((it for it in glob("/usr/share/doc/*/*.gz") if os.path.getsize(it) < 5000), COUNT // 3))
    for number in range(COUNT):
        name = f"made-{number:02}.txt"
        with open(name, "wb") as file:
            file.write(b"some text\n" * number * number + random.randbytes(number * 20))
        run("gzip", f"-{1 + number % 9}", *(["-n"] if number % 3 == 0 else []), name)


def gzip(value, _):
    return {
        "name": value.get("name", ""),
        "time": value["time"],
        "effort": {2: "max compression", 4: "max speed"}.get(value["effort"], ""),
        "size": value["body"]["size"]["magnitude"],
        "sum": value["body"]["checksum"],
    }


def gzip_by_tool(file):
    """What file tells of the header, and Python's zlib of the data."""
    printed = run("file", "-b", file, env=os.environ | {"TZ": "UTC"})
    time_of = found(r"last modified: ([^,]*)", printed)
    with open(file, "rb") as packed:
        data = zlib.decompress(packed.read(), 31)
    return {
        "name": found(r'was "(.*?)"', printed),
        "time": timegm(time.strptime(time_of)) if time_of else 0,
        "effort": found(r"(max compression|max speed)", printed),
        "size": len(data),
        "sum": zlib.crc32(data),
    }


FORMATS = {
    "gzip": Format("gzip", "Gzip", make_gzip, gzip, gzip_by_tool, ("--endian", "little")),
}
