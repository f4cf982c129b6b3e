"""LUKS1: containers that cryptsetup makes, compared with its luksDump."""

import os
import re

from common import COUNT, Format, empty, found, run


# (those that cryptsetup has without a device mapper)
CIPHERS = [("aes-xts-plain64", size) for size in (256, 512)]


CIPHERS += [(f"aes-cbc-{vector}", size) for vector in ("essiv:sha256", "plain64", "plain") for size in (128, 192, 256)]


def make_luks(version):
    with open("key", "w") as key:
        key.write("a key")
    for number in range(COUNT):
        cipher, size = CIPHERS[number % len(CIPHERS)]
        name, digest = f"{number:02}.img", ("sha256", "sha512", "sha1", "sha384")[number % 4]
        empty(name, (4 << 20) + number * 4096 if version == 1 else 17 << 20)
        kind = ["--type", f"luks{version}", "--pbkdf", "pbkdf2", "--pbkdf-force-iterations", 1000 + number]
        if version == 2:
            kind += ["--label", f"disk {number}", "--sector-size", (512, 4096)[number % 2]]
        run("cryptsetup", "luksFormat", "-q", *kind, "-c", cipher, "-s", size, "-h", digest, "-d", "key", name)
        for _ in range(number % 4):
            run("cryptsetup", "luksAddKey", "-q", *kind[2:6], "-d", "key", name, "key")
    os.remove("key")


def luks1(value, _):
    header = value["header"]
    facts = {
        "cipher": header["cipher"],
        "mode": header["mode"],
        "hash": header["hash"],
        "uuid": header["identity"],
        "data": header["data_at"]["magnitude"],
        "key bits": header["key_size"]["magnitude"] * 8,
        "sum": bytes(header["key_sum"]).hex(),
        "salt": bytes(header["key_salt"]).hex(),
        "iterations": header["key_iterations"],
    }
    for number, slot in enumerate(header["slots"]):
        facts[f"slot {number}"] = slot["active"] == 0x00AC71F3
        if facts[f"slot {number}"]:
            facts[f"slot {number} of"] = (
                slot["iterations"],
                bytes(slot["salt"]).hex(),
                slot["key_at"]["magnitude"],
                slot["stripes"],
            )
    return facts


def luks1_by_tool(file):
    printed = run("cryptsetup", "luksDump", file)
    digits = (
        lambda name: found(rf"^{name}:\s*((?:[0-9a-f]{{2}}\s+)+)", printed)
        .replace(" ", "")
        .replace("\n", "")
        .replace("\t", "")
    )
    facts = {
        "cipher": found(r"^Cipher name:\s*(\S+)", printed),
        "mode": found(r"^Cipher mode:\s*(\S+)", printed),
        "hash": found(r"^Hash spec:\s*(\S+)", printed),
        "uuid": found(r"^UUID:\s*(\S+)", printed),
        "data": int(found(r"^Payload offset:\s*(\d+)", printed)),
        "key bits": int(found(r"^MK bits:\s*(\d+)", printed)),
        "sum": digits("MK digest"),
        "salt": digits("MK salt"),
        "iterations": int(found(r"^MK iterations:\s*(\d+)", printed)),
    }
    for part in re.split(r"^Key Slot ", printed, flags=re.M)[1:]:
        number = int(part[0])
        facts[f"slot {number}"] = "ENABLED" in part
        if "ENABLED" in part:
            numbers = [
                int(found(rf"{it}:\s*(\d+)", part)) for it in ("Iterations", "Key material offset", "AF stripes")
            ]
            salt = re.sub(r"\s", "", found(r"Salt:\s*((?:[0-9a-f]{2}\s+)+)", part))
            facts[f"slot {number} of"] = (numbers[0], salt, numbers[1], numbers[2])
    return facts


FORMATS = {
    "luks1": Format("luks1", "Device", lambda: make_luks(1), luks1, luks1_by_tool),
}
