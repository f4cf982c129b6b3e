"""Flattened device trees that dtc makes, compared with fdtdump."""

import random
import re

from common import COUNT, Format, run


def node(number, depth):
    """A node's properties and nodes, as source."""
    words = lambda count: " ".join(str(random.getrandbits(32)) for _ in range(count))
    lines = [f"value-{it} = <{words(it % 5 + 1)}>;" for it in range(depth)]
    lines += [f'text-{it} = "some text {it}", "more";' for it in range(random.randrange(4))]
    lines += ["empty;", f"bytes = [{random.randbytes(1 + number % 9).hex()}];"]
    for it in range(random.randrange(1 + number % 4) if depth < 9 else 0):
        lines += [f"part-{depth}@{it} {{", *node(number, depth + 1), "};"]
    return lines


def make_fdt():
    for number in range(COUNT):
        lines = ["/dts-v1/;", *(f"/memreserve/ {it * 4096} {4096 + it};" for it in range(number % 4)), "/ {"]
        lines += [f'compatible = "a,board-{number}";', "first {", *node(number, 1), "};", "};"]
        more = ["-V", 16 if number % 16 == 1 else 17, "-b", number]
        more += [["-p", 100 + number], ["-S", 30000], ["-a", 64], []][number % 4]
        run("dtc", "-q", *more, "-I", "dts", "-O", "dtb", "-o", f"{number:02}.dtb", input="\n".join(lines))


def names(it, strings, depth=0):
    """The names of a node and of all in it, in order, with their depth."""
    yield depth, it["begin"]["name"]
    for of in it["properties"]:
        yield depth + 1, strings[of["name_at"]["magnitude"] :].split("\0")[0], of["length"]["magnitude"]
    for of in it["nodes"]:
        yield from names(of, strings, depth + 1)


def fdt(value, _):
    head = value["header"]
    places = ("total", "structure_at", "strings_at", "reservations_at", "strings_size", "structure_size")
    facts = {name: head[name]["magnitude"] for name in places if name in head}
    facts |= {name: head[name] for name in ("version", "compatible_version", "boot_processor")}
    strings = "\0".join(value["strings"]) + "\0"
    facts["names"] = [it[:2] for it in names(value["root"], strings)]
    facts["reservations"] = [(it["address"], it["size"]) for it in value["reservations"]["entries"]]
    return facts


SHOWN = {"total": "totalsize", "structure_at": "off_dt_struct", "strings_at": "off_dt_strings"}
SHOWN |= {"reservations_at": "off_mem_rsvmap", "strings_size": "size_dt_strings", "structure_size": "size_dt_struct"}
SHOWN |= {"version": "version", "compatible_version": "last_comp_version", "boot_processor": "boot_cpuid_phys"}


def fdt_by_tool(file):
    printed = run("fdtdump", file)
    numbers = {name: found for name, it in SHOWN.items() if (found := re.search(rf"^// {it}:\t+(\w+)", printed, re.M))}
    facts = {name: int(it[1], 0) for name, it in numbers.items()}
    facts["reservations"] = [
        (int(at, 16), int(size, 16)) for at, size in re.findall(r"^/memreserve/ (\w+) (\w+);", printed, re.M)
    ]
    facts["names"] = []
    for blanks, name, node_start in re.findall(r"^( *)([^ \n/]\S*|/)(?: = .*;|( \{)|;)$", printed, re.M):
        if name not in ("}", "};"):
            facts["names"].append((len(blanks) // 4, "" if name == "/" else name.removesuffix(";")))
    return facts


FORMATS = {"fdt": Format("fdt", "Tree", make_fdt, fdt, fdt_by_tool)}
