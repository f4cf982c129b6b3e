"""MessagePack: values that Python's msgpack makes and reads."""

import struct

from common import COUNT, Format, by_python, run


MESSAGES = """
import json, msgpack, random, sys

def value(depth):
    kind = random.randrange(12 if depth else 9)
    if kind < 3:
        return random.choice((1, -1)) * random.getrandbits(random.choice((3, 7, 8, 15, 16, 31, 32, 62)))
    if kind == 3:
        return random.choice((None, True, False, 2**64 - 1, -(2**63)))
    if kind == 4:
        return random.random() * 1000
    if kind in (5, 6):
        return "täxt "[: random.randrange(6)] * random.choice((1, 5, 60, 300))
    if kind == 7:
        return random.randbytes(random.choice((0, 1, 90, 300, 70000)))
    if kind == 8:
        return msgpack.ExtType(random.randrange(128), random.randbytes(random.choice((1, 2, 4, 8, 16, 3, 300))))
    count = random.choice((0, 3, 14, 20))
    if kind == 9:
        return {f"key {it}": value(depth - 1) for it in range(count)}
    return [value(depth - 1) for _ in range(count)]

def shown(it):
    if isinstance(it, (list, dict)):
        parts = it if isinstance(it, list) else [of for pair in it.items() for of in pair]
        return [type(it).__name__, len(it), *(of for part in parts for of in shown(part))]
    if isinstance(it, msgpack.ExtType):
        return [f"{it.code}: {it.data.hex()}"]
    return [it.hex() if isinstance(it, (bytes, float)) else it]

def facts_of(name):
    with open(name, "rb") as file:
        return {"values": shown(msgpack.unpackb(file.read(), strict_map_key=False))}
"""
MAKE = """
for number in range(int(sys.argv[1])):
    random.seed(number)
    it = {f"entry {of}": value(number % 4) for of in range(number % 12 + 1)} if number % 2 else value(number % 5)
    with open(f"{number:02}.msgpack", "wb") as file:
        file.write(msgpack.packb(it, use_single_float=number % 3 == 0))
"""


def make_messagepack():
    run("/usr/bin/python3", "-c", MESSAGES + MAKE, COUNT)


def message(it):
    """A value and all in it, in order: of a list or a map its name and count first."""
    kind = it["kind"]
    if "list" in it or "map" in it:
        parts = it["list"] if "list" in it else [of for pair in it["map"] for of in (pair["key"], pair["value"])]
        name = "list" if "list" in it else "dict"
        return [name, len(it.get("list", it.get("map"))), *(of for part in parts for of in message(part))]
    if "extension" in it:
        return [f"{it['extension']}: {bytes(it['data']).hex()}"]
    for name, form in (("float_of_32_bits", "If"), ("float_of_64_bits", "Qd")):
        if name in it:
            return [struct.unpack(f">{form[1]}", struct.pack(f">{form[0]}", it[name]))[0].hex()]
    if "text" in it:
        return [bytes(it["text"]).decode()]
    if "data" in it:
        return [bytes(it["data"]).hex()]
    if 0xC0 <= kind <= 0xC3:
        return [{0xC0: None, 0xC2: False, 0xC3: True}[kind]]
    numbers = [of for name, of in it.items() if name.startswith(("of_", "signed_"))]
    return numbers or [kind if kind < 0x80 else kind - 256]


def messagepack(value, _):
    return {"values": message(value["value"])}


def messagepack_by_tool(file):
    return by_python(MESSAGES, file)


FORMATS = {
    "messagepack": Format("messagepack", "Message", make_messagepack, messagepack, messagepack_by_tool),
}
