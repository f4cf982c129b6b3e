"""ISO 9660: images that genisoimage and xorriso make, compared with isoinfo."""

import os
import random
import re
import shutil
import subprocess

from common import COUNT, Format, found, run


def make_iso9660():
    """Plain, with Rock Ridge or Joliet, with a boot image, and with many files."""
    for number in range(COUNT):
        os.makedirs("from/below/deeper")
        for it in range(number):
            folder = ("", "below/", "below/deeper/")[it % 3]
            with open(f"from/{folder}file{it}.txt", "wb") as file:
                file.write(random.randbytes(number * it))
        more = [[], ["-R"], ["-J"], ["-R", "-J"], ["-l"], ["-iso-level", "3"]][number % 6]
        more += ["-V", f"DISK_{number}", "-publisher", f"PUBLISHER {number}", "-p", "PREPARER"]
        if number % 5 == 4:
            with open("from/boot.img", "wb") as file:
                file.write(b"boot" * 512)
            more += ["-b", "boot.img", "-no-emul-boot"]
        command = ["genisoimage", "-quiet"] if number % 3 else ["xorriso", "-as", "mkisofs", "-quiet"]
        subprocess.run([*command, *more, "-o", f"{number:02}.iso", "from"], stderr=subprocess.DEVNULL, check=True)
        shutil.rmtree("from")


def words(numbers):
    return bytes(numbers).decode("latin-1").rstrip(" ")


def iso9660(value, _):
    it = value["primary"]
    facts = {"blocks": it["blocks"]["number"], "block": it["block_size"]["number"]}
    facts |= {name: words(it[name]) for name in ("system", "volume", "publisher", "preparer", "set")}
    facts["root"] = []
    for part in value["root"]:
        for of in part["records"]["records"]:
            name = bytes(of["name"])
            name = {b"\0": ".", b"\1": ".."}.get(name, name.decode("latin-1"))
            facts["root"].append((of["size"]["number"], of["extent"]["number"], name))
    return facts


def iso9660_by_tool(file):
    printed, listed = run("isoinfo", "-d", "-i", file), run("isoinfo", "-l", "-i", file)
    facts = {"blocks": int(found(r"^Volume size is: (\d+)", printed))}
    facts["block"] = int(found(r"^Logical block size is: (\d+)", printed))
    shown = {"system": "System", "volume": "Volume", "publisher": "Publisher", "preparer": "Data preparer"}
    facts |= {name: found(rf"^{it} id:(.*)$", printed) for name, it in shown.items()}
    facts["set"] = found(r"^Volume set id:(.*)$", printed)
    root = listed.split("Directory listing of")[1]
    pattern = r"^\S{10} +\d+ +\d+ +\d+ +(\d+) +\w+ +\d+ +\d+ +\[ *(\d+) \d\d\] +(.*?) *$"
    facts["root"] = [(int(size), int(at), name) for size, at, name in re.findall(pattern, root, re.M)]
    return facts


FORMATS = {"iso9660": Format("iso9660", "Image", make_iso9660, iso9660, iso9660_by_tool)}
