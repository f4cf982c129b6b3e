"""Android boot images that mkbootimg makes, compared with unpack_bootimg."""

import os
import random
import re
import shutil

from common import COUNT, Format, run


def make_android_boot():
    with open("kernel", "wb") as kernel, open("disk", "wb") as disk:
        kernel.write(random.randbytes(9000))
        disk.write(random.randbytes(3000))
    for number in range(COUNT):
        version = number % 4
        parts = ["--kernel", "kernel", *(["--ramdisk", "disk"] if number % 5 else [])]
        parts += ["--second", "disk"] if number % 3 == 0 and version < 3 else []
        parts += ["--dtb", "disk"] if version == 2 else []
        parts += ["--board", f"board {number}", "--pagesize", 2048 << number // 4 % 4] if version < 3 else []
        month = f"20{number + 10}-{number % 12 + 1:02}"
        more = ["--os_version", f"{number + 5}.{number % 3}.1", "--os_patch_level", month]
        more += ["--cmdline", f"quiet number={number} " + "x" * (number % 20 * 30), "--base", number << 24]
        run("mkbootimg", "--header_version", version, *parts, *more, "-o", f"{number:02}.img")
    os.remove("kernel")
    os.remove("disk")


def android_boot(value, _):
    ((form, it),) = value.items()
    head, system = it["header"], it["header"]["system"]
    line = head["command_line"] if "command_line" in head else bytes(head["full_command_line"]).decode()
    facts = {
        "kernel_size": head["kernel_size"]["magnitude"],
        "ramdisk size": head["ramdisk_size"]["magnitude"],
        "boot image header version": head["version"],
        "os version": f"{system['major']}.{system['minor']}.{system['third']}",
        "os patch level": f"{2000 + system['year_since_2000']}-{system['month']:02}",
        "command line": line + head.get("more_command_line", ""),
    }
    if form == "version_0_to_2":
        facts |= {
            "kernel load address": head["kernel_address"],
            "ramdisk load address": head["ramdisk_address"],
            "second bootloader size": head["second_size"]["magnitude"],
            "second bootloader load address": head["second_address"],
            "kernel tags load address": head["tags_address"],
            "page size": head["page"]["magnitude"],
            "product name": head["name"],
        }
    if "recovery" in head:
        facts["boot header size"] = head["recovery"]["header_size"]["magnitude"]
    if "device_tree" in head:
        tree = head["device_tree"]
        facts |= {"dtb size": tree["size"]["magnitude"], "dtb address": tree["address"]}
    return facts


def android_boot_by_tool(file):
    printed = run("unpack_bootimg", "--boot_img", file, "--out", "told")
    shutil.rmtree("told")
    facts = dict(re.findall(r"^([\w ]+): (.*)$", printed, re.M))
    facts["command line"] = facts.pop("command line args") + facts.pop("additional command line args", "")
    for name in ("boot_magic", "recovery dtbo size", "recovery dtbo offset"):
        facts.pop(name, None)
    texts = ("os version", "os patch level", "command line", "product name")
    return {name: it if name in texts else int(it, 0) for name, it in facts.items()}


FORMATS = {
    "android_boot": Format(
        "android_boot", "Boot", make_android_boot, android_boot, android_boot_by_tool, ("--endian", "little")
    ),
}
