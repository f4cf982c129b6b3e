"""Java: classes of Debian's libraries, compared with javap."""

import re
import zipfile
from glob import glob

from common import COUNT, Format, run, some


def make_java():
    """Classes from all over Debian's Java libraries."""
    number = 0
    for library in some(glob("/usr/share/java/*.jar"), COUNT // 2 + 5):
        with zipfile.ZipFile(library) as it:
            classes = sorted(of for of in it.namelist() if of.endswith(".class"))
            for name in classes[len(classes) // 2 :][:2]:
                with open(f"{number:02}.class", "wb") as file:
                    file.write(it.read(name))
                number += 1


JAVA = {
    1: "Utf8",
    3: "Integer",
    4: "Float",
    5: "Long",
    6: "Double",
    7: "Class",
    8: "String",
    9: "Fieldref",
    10: "Methodref",
    11: "InterfaceMethodref",
    12: "NameAndType",
    15: "MethodHandle",
    16: "MethodType",
    17: "Dynamic",
    18: "InvokeDynamic",
    19: "Module",
    20: "Package",
}


def java(value, _):
    constants, at = [], 1
    for it in value["constants"]:
        tag = it["constant"]["tag"]
        constants.append((at, JAVA[tag]))
        at += 2 if tag in (5, 6) else 1
    flags = 0
    for name, size in zip(value["flags"], (1, 1, 1, 1, 1, 1, 1, 3, 1, 1, 3, 1)):
        flags = flags << size | value["flags"][name]
    members = value["fields"] + value["methods"]
    return {
        "version": (value["minor"], value["major"]),
        "flags": flags,
        "classes": (value["this_class"], value["super_class"]),
        "counts": [len(value[it]) for it in ("interfaces", "fields", "methods", "attributes")],
        "constants": constants,
        "members": [it["flags"] for it in members],
    }


def java_by_tool(file):
    printed = run("javap", "-v", "-p", file)
    of = lambda pattern: [int(it, 0) for it in re.search(pattern, printed, re.M).groups()]
    pool = re.findall(r"^ *#(\d+) = (\w+)", printed, re.M)
    return {
        "version": (*of(r"^  minor version: (\d+)"), *of(r"^  major version: (\d+)")),
        "flags": of(r"^  flags: \((\w+)\)")[0],
        "classes": (*of(r"^  this_class: #(\d+)"), *of(r"^  super_class: #(\d+)")),
        "counts": of(r"^  interfaces: (\d+), fields: (\d+), methods: (\d+), attributes: (\d+)$"),
        "constants": [(int(at), kind) for at, kind in pool],
        "members": [int(it, 16) for it in re.findall(r"^    flags: \(0x(\w+)\)", printed, re.M)],
    }


FORMATS = {
    "java": Format("java", "Class", make_java, java, java_by_tool),
}
