"""NVMe: what QEMU's drives tell its firmware, found in memory, compared with Python's struct."""

import os
import struct
import subprocess
import time

from common import COUNT, Format, empty


def make_nvme():
    """The answers that SeaBIOS got, which are still in memory."""
    for number in range(COUNT):
        empty("disk", (1 + number * 3) << 20)
        machine = ["-M", "q35", "-m", 32, "-drive", "file=disk,format=raw,if=none,id=d"]
        machine += ["-device", f"nvme,drive=d,serial=KEG-{number:04},mdts={number % 8}"]
        command = ["qemu-system-x86_64", *machine, "-net", "none", "-display", "none", "-monitor", "stdio"]
        running = subprocess.Popen(list(map(str, command)), stdin=subprocess.PIPE, stdout=subprocess.DEVNULL, text=True)
        time.sleep(5)  # for the firmware
        running.communicate(f"pmemsave 0 {32 << 20} memory\nquit\n")
        with open("memory", "rb") as memory:
            data = memory.read()
        at = data.find(struct.pack("<HH20s", 0x1B36, 0x1AF4, f"KEG-{number:04}".ljust(20).encode()))
        if at >= 0:
            with open(f"{number:02}.bin", "wb") as file:
                file.write(data[at : at + 4096])
    os.remove("memory")
    os.remove("disk")


# places and forms in the answer, by the pickle's names (figure 275 of the specification)
NUMBERS = {"vendor": (0, "H"), "subsystem_vendor": (2, "H"), "most_transfer": (77, "B"), "controller": (78, "H")}
NUMBERS |= {"attributes": (96, "I"), "kind": (111, "B"), "commands_of_administration": (256, "H")}
NUMBERS |= {"most_aborts": (258, "B")}
NUMBERS |= {"most_events": (259, "B"), "firmware_slots": (260, "B"), "log_features": (261, "B")}
NUMBERS |= {"warning_temperature": (266, "H"), "critical_temperature": (268, "H"), "most_commands": (514, "H")}
NUMBERS |= {"namespaces": (516, "I"), "commands": (520, "H"), "write_cache": (525, "B"), "scatter_features": (536, "I")}


def nvme(value, _):
    facts = {name: value[name] for name in NUMBERS}
    facts |= {name: bytes(value[name]).hex() for name in ("serial", "model", "firmware")}
    version = value["version"]
    return facts | {"version": [version["major"], version["minor"], version["third"]]}


def nvme_by_struct(file):
    with open(file, "rb") as it:
        data = it.read()
    facts = {name: struct.unpack_from(f"<{form}", data, at)[0] for name, (at, form) in NUMBERS.items()}
    facts |= {"serial": data[4:24].hex(), "model": data[24:64].hex(), "firmware": data[64:72].hex()}
    third, minor, major = struct.unpack_from("<BBH", data, 80)
    return facts | {"version": [major, minor, third]}


FORMATS = {"nvme": Format("nvme", "Controller", make_nvme, nvme, nvme_by_struct, ("--whole",))}
