"""LUKS2: containers that cryptsetup makes, compared with its luksDump."""

import json

from common import Format, found, run
from readers.luks1 import make_luks


def luks2(value, _):
    header = value["first"]
    return {
        "uuid": header["identity"],
        "label": header["label"],
        "number": header["number"],
        "size": header["size"]["magnitude"],
        "description": json.loads(header["description"]),
    }


def luks2_by_tool(file):
    printed = run("cryptsetup", "luksDump", file)
    return {
        "uuid": found(r"^UUID:\s*(\S+)", printed),
        "label": found(r"^Label:\s*(.+)", printed),
        "number": int(found(r"^Epoch:\s*(\d+)", printed)),
        "size": int(found(r"^Metadata area:\s*(\d+)", printed)),
        "description": json.loads(run("cryptsetup", "luksDump", "--dump-json-metadata", file)),
    }


FORMATS = {
    "luks2": Format("luks2", "Device", lambda: make_luks(2), luks2, luks2_by_tool),
}
