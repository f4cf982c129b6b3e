"""ACPI: the tables that iasl has as examples, compared with what it disassembles."""

import os
import re
import subprocess
from glob import glob

import common
from common import PICKLES, Format, run


def make_acpi():
    run("iasl", "-T", "ALL")
    for table in glob("*.asl"):
        subprocess.run(["iasl", table], capture_output=True)
        os.remove(table)


def acpi(value, file):
    """Each number with its place, so that it is compared by place and size."""
    printed = run(common.program, "map", "--mode", "lines", f"{PICKLES}/acpi.pk", "Table", file)
    facts = {}
    for _, start, size, shown in (it.split("\t") for it in printed.splitlines()):
        number = re.search(r"(?:^|\) )(\d+)", shown)
        if number and size != "0#b":
            facts[int(start[:-2]) // 8, int(size[:-2]) // 8] = int(number[1])
    return facts


def acpi_by_tool(file):
    run("iasl", "-p", "told", "-d", file)
    with open("told.dsl", errors="replace") as told:
        lines = told.read()
    os.remove("told.dsl")
    pattern = r"^\[[0-9A-F]{3}h (\d{4}) +([1248])\] +.*? : ([0-9A-F]+)$"
    return {(int(at), int(size)): int(value, 16) for at, size, value in re.findall(pattern, lines, re.M)}


FORMATS = {
    "acpi": Format("acpi", "Table", make_acpi, acpi, acpi_by_tool, ours_alone=True),
}
