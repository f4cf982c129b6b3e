"""MBR: disks that sfdisk makes and describes."""

import json
import random

from common import COUNT, Format, empty, found, run


def make_mbr():
    kinds = ("83", "82", "c", "7", "e", "fd", "8e", "a5")
    for number in range(COUNT):
        empty(f"{number:02}.img", (8 + number * number * 40) << 20)
        script = f"label: dos\nlabel-id: {random.getrandbits(32):#x}\n"
        for part in range(number % 5):
            if part == 3:
                script += "type=5\nsize=1MiB, type=83\n"
            else:
                script += f"size={1 + part * number}MiB, type={kinds[(number + part) % 8]}"
                script += ", bootable\n" if (number + part) % 3 == 0 else "\n"
        run("sfdisk", "-q", f"{number:02}.img", input=script)


def mbr(value, _):
    record = value["record"]
    facts = {"disk": record["disk"]}
    for number, it in enumerate(record["partitions"], 1):
        if it["kind"]:
            places = [it["start"]["magnitude"], it["size"]["magnitude"]]
            facts[f"partition {number}"] = [*places, it["kind"], it["active"] == 0x80]
    return facts


def mbr_by_tool(file):
    """All except logical partitions, which other sectors describe."""
    table = json.loads(run("sfdisk", "--json", file))["partitiontable"]
    facts = {"disk": int(table["id"], 16)}
    for it in table.get("partitions", []):
        number = int(found(r"\.img(\d+)$", it["node"]))
        if number <= 4:
            places = [it["start"], it["size"]]
            facts[f"partition {number}"] = [*places, int(it["type"], 16), it.get("bootable", False)]
    return facts


FORMATS = {
    "mbr": Format("mbr", "Disk", make_mbr, mbr, mbr_by_tool),
}
