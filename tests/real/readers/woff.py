"""WOFF: fonts of Debian's packages, compared with fontTools."""

import os

from common import Format, by_python, packages, take


def make_woff():
    packages("fonts-katex", "fonts-mathjax", "fonts-mathjax-extras", "fonts-font-awesome", "fonts-fork-awesome")
    take("*.woff")


def woff(value, _):
    facts = {"tables": value["table_count"], "length": value["length"]["magnitude"]}
    for it in value["tables"]:
        name = bytes(it["name"]).decode()
        places = [it[of]["magnitude"] for of in ("from", "packed_length", "original_length")]
        facts[name] = (*places, it["sum"])
    return facts


SCRIPT = """
from fontTools.ttLib.sfnt import SFNTReader
def facts_of(file):
    with open(file, "rb") as font:
        tables = SFNTReader(font).tables.items()
        return {str(tag): [it.offset, it.length, it.origLength, it.checkSum] for tag, it in tables}
"""


def woff_by_tool(file):
    facts = {name: tuple(it) for name, it in by_python(SCRIPT, file).items()}
    return facts | {"tables": len(facts), "length": os.path.getsize(file)}


FORMATS = {
    "woff": Format("woff", "Woff", make_woff, woff, woff_by_tool),
}
