"""xz: files that xz makes, compared with its list."""

import os
import random

from common import COUNT, Format, run


def make_xz():
    """With each check, of one or several blocks and streams, with filters, from a pipe, and with padding."""
    for number in range(COUNT):
        name = f"{number:02}.txt"
        with open(name, "wb") as file:
            file.write(b"some text " * number * 200 + random.randbytes(number * 70))
        more = [f"-{number % 10}", "-C", ("none", "crc32", "crc64", "sha256")[number % 4]]
        blocks = ["--block-size", 1000 + number * 10]
        more += [blocks, ["--x86", "--lzma2"], ["--delta=dist=4", "--lzma2"], []][number % 4 - 1]
        run("xz", "-T1", "-k", *more, name)
        if number % 6 == 5:
            with open(f"{name}.xz", "rb") as packed:
                data = packed.read()
            with open(f"{name}.xz", "wb") as packed:
                packed.write(data + bytes(4 * (number % 5)) + data)
        os.remove(name)


def number_of(it):
    if not it["more"]:
        return it["value"]
    return it["low"]["value"] + (number_of(it["high"]) << 14 if "high" in it else 0)


def xz(value, _):
    facts = {"streams": len(value["streams"]), "blocks": []}
    checks = {0: "None", 1: "CRC32", 4: "CRC64", 10: "SHA-256"}
    facts["checks"] = [checks[it["flags"]["check"]] for it in value["streams"]]
    for stream in value["streams"]:
        for block, sizes in zip(stream["blocks"], stream["index"]["sizes"]):
            packed, size = number_of(sizes["size"]), number_of(sizes["unpacked_size"])
            check, header = bytes(block["check"])[::-1].hex(), (block["header"]["size"] + 1) * 4
            facts["blocks"].append(((packed + 3) // 4 * 4, size, header, len(block["header"]["filters"]), check))
    return facts


def xz_by_tool(file):
    facts = {"blocks": [], "checks": []}
    for line in run("xz", "--robot", "-lvv", file).splitlines():
        kind, *it = line.split("\t")
        if kind == "file":
            facts["streams"] = int(it[0])
        if kind == "stream":
            facts["checks"].append(it[7])
        if kind == "block":
            # (it prints a check as a number, where the file has it in little-endian order, but SHA-256 as bytes)
            check = "" if it[8] == "None" else it[9] if it[8] != "SHA-256" else bytes.fromhex(it[9])[::-1].hex()
            facts["blocks"].append((int(it[5]), int(it[6]), int(it[10]), len(it[14].split()), check))
    return facts


FORMATS = {"xz": Format("xz", "Xz", make_xz, xz, xz_by_tool)}
