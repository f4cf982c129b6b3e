"""UF2: blocks that are made and read by Python's struct, since Debian has no tool that makes them."""

import random
import struct

from common import COUNT, Format

MAGIC = 0x0A324655, 0x9E5D5157, 0x0AB16F30


def make_uf2():
    """Of one to sixty blocks, with and without a family, checksums and tags."""
    for number in range(COUNT):
        size = (256, 476, 128, 64)[number % 4]
        flags = (0x2000, 0, 0x2000 | 0x4000, 1)[number // 4 % 4]
        with open(f"{number:02}.uf2", "wb") as file:
            for at in range(number + 1):
                head = *MAGIC[:2], flags, 0x10000000 + at * size, size, at, number + 1, 0xE48BFF56 if flags else 0
                payload = random.randbytes(size).ljust(476, b"\0")
                file.write(struct.pack("<8I476sI", *head, payload, MAGIC[2]))


def uf2(value, _):
    facts = {"blocks": []}
    for it in value["blocks"]:
        flags = it["flags"]
        bits = flags["not_main_flash"] | flags["family_known"] << 13 | flags["md5"] << 14
        bits |= flags["extension_tags"] << 15
        place = [it["address"], it["size"]["magnitude"], it["number"], it["count_again"]]
        facts["blocks"].append([bits, *place, it.get("family", it.get("file_size")), bytes(it["payload"]).hex()])
    return facts


def uf2_by_struct(file):
    facts = {"blocks": []}
    with open(file, "rb") as it:
        while block := it.read(512):
            _, _, *numbers, data, _ = struct.unpack("<8I476sI", block)
            facts["blocks"].append([*numbers, data[: numbers[2]].hex()])
    return facts


FORMATS = {"uf2": Format("uf2", "Uf2", make_uf2, uf2, uf2_by_struct)}
