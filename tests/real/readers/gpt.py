"""GPT: disks that sfdisk and sgdisk make, compared with sfdisk."""

import json
import struct
from uuid import UUID

from common import COUNT, Format, empty, found, run


def guid(it):
    return str(UUID(fields=(it["a"], it["b"], it["c"], *it["d"][:2], int.from_bytes(bytes(it["d"][2:]), "big"))))


def make_gpt():
    kinds = ("linux", "swap", "uefi", "home", "raid", "lvm")
    for number in range(COUNT):
        name = f"{number:02}.img"
        empty(name, (8 + number) << 20)
        script = f"label: gpt\ntable-length: {(128, 4, 56, 256)[number % 4]}\n"
        for part in range(1 + number % 4):
            script += f'size={1 + part}MiB, type={kinds[(number + part) % 6]}, name="part {part} ä"'
            script += (', attrs="LegacyBIOSBootable"', ', attrs="RequiredPartition GUID:60"', "")[(number + part) % 3]
            script += "\n"
        if number % 2:
            run("sfdisk", "-q", name, input=script)
        else:
            run("sgdisk", "-S", (128, 32)[number % 4 // 2], "-a", 64, "-n", "0:0:+900K", "-t", "0:8200", name)
            for part in range(2, number // 2 + 2):
                more = ["-n", f"0:0:+{300 + part}K", "-c", f"{part}:disk {number}", "-A", f"{part}:set:{part % 3}"]
                run("sgdisk", *more, name)


def gpt(value, _):
    head = value["header"]
    facts = {
        "disk": guid(head["disk"]),
        "usable": [head["first_usable"]["magnitude"], head["last_usable"]["magnitude"]],
        "entries": head["entry_count"],
    }
    for number, it in enumerate(value["entries"], 1):
        if "used" in it:
            used, bits = it["used"], it["used"]["attributes"]
            name = struct.pack("<36H", *used["name"]).decode("utf-16-le").rstrip("\0")
            places = [used["first"]["magnitude"], used["last"]["magnitude"] - used["first"]["magnitude"] + 1]
            flags = [bool(bits[of]) for of in ("required", "bootable")]
            facts[f"partition {number}"] = [*places, guid(it["kind"]), guid(used["partition"]), name, *flags]
    return facts


def gpt_by_tool(file):
    table = json.loads(run("sfdisk", "--json", file))["partitiontable"]
    facts = {
        "disk": table["id"].lower(),
        "usable": [table["firstlba"], table["lastlba"]],
        "entries": int(table.get("table-length", 128)),
    }
    for it in table["partitions"]:
        flags = [of in it.get("attrs", "") for of in ("RequiredPartition", "LegacyBIOSBootable")]
        names = [it["type"].lower(), it["uuid"].lower(), it.get("name", "")]
        facts["partition " + found(r"\.img(\d+)$", it["node"])] = [it["start"], it["size"], *names, *flags]
    return facts


FORMATS = {
    "gpt": Format("gpt", "Disk", make_gpt, gpt, gpt_by_tool, ("--endian", "little")),
}
