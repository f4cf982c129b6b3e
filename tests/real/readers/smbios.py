"""SMBIOS: what QEMU's firmware writes into memory, compared with dmidecode."""

import os
import re
import subprocess
import time
from uuid import UUID

from common import COUNT, Format, found, run


def make_smbios():
    """What QEMU and its firmware write into a machine's memory, dumped by dmidecode."""
    for number in range(COUNT):
        form = "pc" if number % 3 else "q35"
        machine = ["-M", f"{form},smbios-entry-point-type={64 if number % 2 else 32}", "-m", 32 << number % 4]
        machine += ["-smp", f"{1 + number % 4},sockets={1 + number % 4},cores=1,threads=1,maxcpus={1 + number % 4}"]
        words = [f"type=0,vendor=Maker {number},version=1.{number},date=11/27/2026,release=2.{number}"]
        words += [f"type=1,manufacturer=A,product=Thing {number},serial={number:09},uuid={UUID(int=number << 99 | 5)}"]
        words += [f"type=2,manufacturer=B,product=Board,version={number},serial=S{number},asset=A,location=here"]
        words += [f"type=3,manufacturer=C,version=Box {number},serial=x,asset=y,sku=z"]
        words += [f"type=4,sock_pfx=socket,manufacturer=D,version=E,serial={number},max-speed=3{number:03}"]
        words += ["type=11," + ",".join(f"value=text {it} of {number}" for it in range(number + 1))]
        words += [f"type=17,loc_pfx=slot,bank=bank,manufacturer=F,serial={number},part=G,speed={1000 + number}"]
        more = [it for at, word in enumerate(words) if number >> at % 4 & 1 for it in ("-smbios", word)]
        command = ["qemu-system-x86_64", *machine, *more, "-net", "none", "-display", "none", "-monitor", "stdio"]
        running = subprocess.Popen(list(map(str, command)), stdin=subprocess.PIPE, stdout=subprocess.DEVNULL, text=True)
        time.sleep(5)  # for the firmware
        running.communicate(f"pmemsave 0 {(32 << number % 4) << 20} memory\nquit\n")
        run("dmidecode", "-d", "memory", "--dump-bin", f"{number:02}.bin")
        os.remove("memory")


# What dmidecode tells of a structure, by the pickle's names: texts, and numbers with the unit that it shows.
SMBIOS = {
    0: ({"Vendor": "vendor", "Version": "version", "Release Date": "date"}, {}),
    1: (
        {
            "Manufacturer": "maker",
            "Product Name": "product",
            "Version": "version",
            "Serial Number": "serial",
            "SKU Number": "stock_number",
            "Family": "family",
        },
        {},
    ),
    2: (
        {
            "Manufacturer": "maker",
            "Product Name": "product",
            "Version": "version",
            "Serial Number": "serial",
            "Asset Tag": "asset",
            "Location In Chassis": "location",
        },
        {},
    ),
    3: (
        {
            "Manufacturer": "maker",
            "Version": "version",
            "Serial Number": "serial",
            "Asset Tag": "asset",
            "SKU Number": "stock_number",
        },
        {"Contained Elements": ("part_count", "")},
    ),
    4: (
        {
            "Socket Designation": "socket",
            "Manufacturer": "maker",
            "Version": "version",
            "Serial Number": "serial",
            "Asset Tag": "asset",
            "Part Number": "part",
        },
        {
            "Max Speed": ("most_speed", " MHz"),
            "Current Speed": ("speed", " MHz"),
            "Core Count": ("cores", ""),
            "Core Enabled": ("enabled_cores", ""),
            "Thread Count": ("threads", ""),
        },
    ),
    16: ({}, {"Number Of Devices": ("count", "")}),
    17: (
        {
            "Locator": "place",
            "Bank Locator": "bank",
            "Manufacturer": "maker",
            "Serial Number": "serial",
            "Asset Tag": "asset",
            "Part Number": "part",
        },
        {"Size": ("size", " MB"), "Speed": ("speed", " MT/s"), "Configured Memory Speed": ("used_speed", " MT/s")},
    ),
    19: ({}, {"Partition Width": ("width", "")}),
}


def smbios(value, _):
    ((form, it),) = value.items()
    entry, facts = it["entry"], {"structures": []}
    facts["version"] = f"{entry['major']}.{entry['minor']}" + (f".{entry['document']}" if form == "version_3" else "")
    for of in it["structures"]["list"]:
        body = next((part for name, part in of.items() if isinstance(part, dict) and name != "length"), {})
        kind, handle = of["kind"], of["handle"]
        facts["structures"].append((handle, kind, of["length"]["magnitude"]))
        listed = [word["text"] if isinstance(word, dict) else word for word in of.get("texts", [])]
        texts, numbers = SMBIOS.get(kind, ({}, {}))
        for name, ours in texts.items():
            if ours in body:
                facts[handle, name] = ["Not Specified", *listed][body[ours]]
        for name, (ours, unit) in numbers.items():
            if ours in body:
                facts[handle, name] = f"{body[ours]}{unit}" if body[ours] else "Unknown" if unit else "0"
        if kind == 1:
            facts[handle, "UUID"] = str(UUID(bytes_le=bytes(body["identifier"])))
        if kind == 11:
            facts[handle, "texts"] = listed
    return facts


def smbios_by_tool(file):
    printed = run("dmidecode", "--from-dump", file)
    facts = {"version": found(r"^SMBIOS (\S+) present", printed), "structures": []}
    for part in re.split(r"^Handle ", printed, flags=re.M)[1:]:
        handle, kind, length = (int(it, 0) for it in re.match(r"(\w+), DMI type (\d+), (\d+) bytes", part).groups())
        if kind == 127:
            continue
        facts["structures"].append((handle, kind, length))
        texts, numbers = SMBIOS.get(kind, ({}, {}))
        for name in (*texts, *numbers, *(["UUID"] if kind == 1 else [])):
            told = re.search(rf"^\t{name}: (.*?) *$", part, re.M)
            if told:
                facts[handle, name] = told[1]
        if kind == 1:
            facts[handle, "UUID"] = facts[handle, "UUID"].replace("Not Settable", str(UUID(int=0)))
        if kind == 11:
            facts[handle, "texts"] = re.findall(r"^\tString \d+: (.*)$", part, re.M)
    return facts


FORMATS = {
    "smbios": Format("smbios", "Dump", make_smbios, smbios, smbios_by_tool),
}
