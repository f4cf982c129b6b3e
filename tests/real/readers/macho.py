"""Mach-O: objects that clang makes, compared with llvm-objdump and llvm-readobj."""

from common import Format, text
from objects import at_in, make_objects, object_by_tool


def macho(value, _):
    it = value["file"]
    segment = it["commands"][0].get("segment_64") or it["commands"][0]["segment_32"]
    parts = it.get("relocations_64") or it.get("relocations_32") or {}
    return {
        "commands": it["header"]["command_count"],
        "sections": [(text(of["name"]), of["size"]["magnitude"], of["address"]) for of in segment["sections"]],
        "symbols": [
            (at_in(it["names"], of["name"]["magnitude"]), of.get("value", of.get("value_32")), of["section"])
            for of in it["symbols"]
        ],
        # (those of i386 that are scattered have their kind in the upper byte)
        "relocations": [
            of["place"] & 0xFFFFFF if of["place"] >> 31 else of["place"] for part in parts.values() for of in part
        ],
    }


MACHO = "x86_64-apple-darwin", "arm64-apple-darwin", "i386-apple-darwin"


FORMATS = {
    "macho": Format("macho", "Whole", lambda: make_objects(*MACHO), macho, object_by_tool, ("--endian", "little")),
}
