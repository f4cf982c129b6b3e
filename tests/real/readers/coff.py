"""COFF: objects that clang makes, compared with llvm-objdump and llvm-readobj."""

from common import Format, text
from objects import at_in, make_objects, object_by_tool


def coff(value, _):
    names = lambda place: at_in(value["names"], place, 4)
    sections = []
    for it in value["sections"]:
        name = text(it["name"])
        name = names(int(name[1:])) if name.startswith("/") else name
        sections.append((name, it["size"]["magnitude"], it["address"]["magnitude"]))
    symbols = []
    for it in value["symbols"]:
        name = names(it["name"]["long"]["place"]["magnitude"]) if "long" in it["name"] else text(it["name"]["short"])
        symbols.append((name, it["value"], it["section"]))
    parts = [it for name, it in value.items() if name.startswith("relocations_")]
    return {
        "sections": sections,
        "symbols": symbols,
        "relocations": [of["place"] for part in parts for of in part],
    }


COFF = "x86_64-pc-windows-msvc", "i686-pc-windows-msvc", "aarch64-pc-windows-msvc", "x86_64-w64-windows-gnu"


FORMATS = {
    "coff": Format("coff", "Coff", lambda: make_objects(*COFF), coff, object_by_tool, ("--endian", "little")),
}
