"""WebAssembly: modules that clang and wasm-ld make, compared with llvm-objdump."""

import re

from common import COUNT, Format, run
from objects import make_objects


def make_wasm():
    make_objects("wasm32", "wasm64")
    for number in range(0, COUNT, 4):
        more = ["--export-all", "--no-entry", "--allow-undefined"]
        run("wasm-ld", *more, f"{number:02}.o", "-o", f"{number:02}.wasm")


WASM = ("", "TYPE", "IMPORT", "FUNCTION", "TABLE", "MEMORY", "GLOBAL", "EXPORT", "START", "ELEM", "CODE", "DATA")


def length_of(it):
    if not it["more"]:
        return it["value"]
    return it["low"]["value"] + (length_of(it["high"]) << 14 if "high" in it else 0)


def wasm(value, _):
    sections = []
    for it in value["sections"]:
        size = length_of(it["size"])
        names = (*WASM, "DATACOUNT")
        name = names[it["id"]]
        if it["id"] == 0:
            name = bytes(it["body"]["custom"]["name"]["bytes"]).decode()
            size = len(it["body"]["custom"]["content"])
        sections.append((name, size))
    return {"sections": sections}


def wasm_by_tool(file):
    listed = run("llvm-objdump", "-h", "-w", file)
    shown = re.findall(r"^ *\d+ (\S+) +([0-9a-f]{8}) [0-9a-f]{8,16} ", listed, re.M)
    return {"sections": [(name, int(size, 16)) for name, size in shown]}


FORMATS = {
    "wasm": Format("wasm", "Module", make_wasm, wasm, wasm_by_tool),
}
