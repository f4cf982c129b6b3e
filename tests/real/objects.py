"""Objects that clang makes, and what llvm-objdump and llvm-readobj print of them."""

import os
import re
import subprocess
from glob import glob

from common import COUNT, copy, found, run, some


def make_objects(*targets):
    for number in range(COUNT):
        lines = ["extern int other(int); static int kept = 3;"]
        for it in range(1 + number % 24 * 2):
            lines.append(f'int numbers_{it}[{it + 1}]; const char *text_{it} = "text {it}";')
            lines.append(f"int f{it}(int x) {{ return other(x + {it}) * kept + numbers_{it}[x] - *text_{it}; }}")
            lines.append(f"double d{it}(double x) {{ return x * {it}.25; }}")
        with open("from.c", "w") as file:
            file.write("\n".join(lines))
        more = [f"-O{number % 4}", *(["-g"] if number % 3 == 0 else []), "-ffreestanding"]
        more += ["-ffunction-sections"] if number % 5 == 1 else []
        run("clang", f"--target={targets[number % len(targets)]}", *more, "-c", "from.c", "-o", f"{number:02}.o")
    os.remove("from.c")


def at_in(names, at, start=0):
    """The text at a place among texts that each end with a 0."""
    return ("\0".join(names) + "\0")[at - start :].split("\0")[0]


def relocation_places(printed, last):
    """The places of relocations, up to those of a section. The pickles have them of so many sections."""
    parts = re.findall(r"^  Section (?:\((\d+)\) )?\S+ {\n(.*?)^  }", printed, re.M | re.S)
    listed = "".join(part for section, part in parts if int(section or 0) <= last)
    return [int(it, 16) for it in re.findall(r"^    0x(\w+) ", listed, re.M)]


def object_by_tool(file):
    """By llvm-objdump and llvm-readobj."""
    listed = run("llvm-objdump", "-h", "-w", file)
    shown = re.findall(r"^ *\d+ (\S+) +([0-9a-f]{8}) ([0-9a-f]{8,16}) ", listed, re.M)
    sections = [(name, int(size, 16), int(address, 16)) for name, size, address in shown]
    printed = run("llvm-readobj", "--file-headers", "--symbols", "--relocs", file)
    symbols = []
    for part in printed.split("  Symbol {\n")[1:]:
        name = re.search(r"Name: (.*?)(?: \(\d+\))?$", part, re.M)[1]
        section = int(found(r"Section: .*\((-?(?:0x)?\w+)\)$", part), 0)
        symbols.append((name, int(found(r"^    Value: (\w+)", part), 0), section))
    facts = {"sections": sections, "symbols": symbols}
    facts["relocations"] = relocation_places(printed, 128)
    count = found(r"NumOfLoadCommands: (\d+)", printed)
    return facts | ({"commands": int(count)} if count else {})


ELF_64 = "x86_64 aarch64 aarch64_be powerpc64 powerpc64le mips64 mips64el riscv64 s390x".split()
ELF_32 = "i386 arm armeb powerpc mips mipsel riscv32".split()


def make_elf(*processors):
    """Objects, of which every third is linked as a library."""
    make_objects(*(f"{it}-linux-gnu" for it in processors))
    for number, it in enumerate(sorted(glob("*.o"))):
        if number % 3 == 2:
            command = ["ld.lld", "-shared", it, "-o", f"{it[:-2]}.so"]
            subprocess.run(command, stderr=subprocess.DEVNULL, check=False)  # not all processors


def programs(count):
    """So many programs of this machine that are ELF."""
    every = [it for it in glob("/usr/bin/*") if os.path.isfile(it) and os.path.getsize(it) < 1 << 20]
    copy(some([it for it in every if first_four(it) == b"\x7fELF"], count))


def first_four(path):
    with open(path, "rb") as file:
        return file.read(4)


def elf_order(file):
    """The option with the byte order of a file."""
    with open(file, "rb") as it:
        return "--endian", "big" if it.read(6)[5] == 2 else "little"


def elf_head(value):
    """The numbers of the header, and the places of the segments."""
    head = value["header"]
    return {
        "entry": head["entry"],
        "places": [head["segments"]["magnitude"], head["sections"]["magnitude"]],
        "counts": [head["segment_count"], head["section_count"], head["section_of_names"]],
        "segments": [
            (it["from"]["magnitude"], it["address"], it["size_in_file"]["magnitude"], it["size_in_memory"]["magnitude"])
            for it in value["segments"]
        ],
    }


def elf_whole(value, _):
    it = value["elf"]
    names = "\0".join(it["section_names"]["texts"]) + "\0" if "section_names" in it else ""
    of = lambda place: names[place:].split("\0")[0]
    sections = [
        (of(one["name"]["magnitude"]), one["address"], one["from"]["magnitude"], one["size"]["magnitude"], one["link"])
        for one in it["sections"]
    ]
    symbols = [
        (at_in(it[f"{kind}_names"], one["name"]["magnitude"]), one["value"], one["size"]["magnitude"])
        for kind, listed in (("symbol", "symbols"), ("dynamic_symbol", "dynamic_symbols"))
        for one in it.get(listed, [])
    ]
    places = [one["place"] for part in value["relocations"].values() for one in part]
    return elf_head(it) | {"sections": sections, "symbols": symbols, "relocations": places}


def elf_by_tool(file):
    """By llvm-readobj."""
    printed = run("llvm-readobj", "-h", "-S", "-l", "--symbols", "--dyn-symbols", "-r", file)
    number = lambda name, part: int(found(rf"^ *{name}: (\w+)", part) or "0", 0)
    numbers = lambda part, *names: tuple(number(name, part) for name in names)
    parts = lambda kind: [it.split("\n  }")[0] for it in printed.split(f"  {kind} {{\n")[1:]]
    places = "Address", "Offset", "Size", "Link"
    sections = [(found(r"Name: (.*?) \(\w+\)$", it), *numbers(it, *places)) for it in parts("Section")]
    # (a symbol without a name has that of its section there, and a version may follow a name)
    name_of = lambda it: "" if "(0)" in found(r"Name: (.*)$", it) else found(r"Name: (.*?)(?:@\S*)? ?\(\w+\)$", it)
    symbols = [(name_of(it), *numbers(it, "Value", "Size")) for it in parts("Symbol")]
    return {
        "entry": number("Entry", printed),
        "places": list(numbers(printed, "ProgramHeaderOffset", "SectionHeaderOffset")),
        "counts": list(numbers(printed, "ProgramHeaderCount", "SectionHeaderCount", "StringTableSectionIndex")),
        "segments": [numbers(it, "Offset", "VirtualAddress", "FileSize", "MemSize") for it in parts("ProgramHeader")],
        "sections": sections,
        "symbols": symbols,
        "relocations": relocation_places(printed, 127),
    }
