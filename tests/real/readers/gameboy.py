"""Game Boy: images that sdcc makes, compared with file and Python's struct."""

import os
import struct

from common import COUNT, Format, found, run, text


GAMEBOY = {0: "ROM ONLY", 1: "MBC1", 2: "MBC1+RAM", 3: "MBC1+RAM+BATT", 5: "MBC2", 6: "MBC2+BATTERY"}


GAMEBOY |= {0x0F: "MBC3+TIMER+BATT", 0x13: "MBC3+RAM+BATT", 0x19: "MBC5", 0x1B: "MBC5+RAM+BATT", 0xFD: "Bandai TAMA5"}


def make_gameboy():
    """By sdcc's makebin, each with other settings."""
    for number in range(COUNT):
        record = bytes((4, 1, 0x50, 0, number, 0x18, 0xFE, 0xC9))
        with open("from.ihx", "w") as file:
            file.write(f":{record.hex().upper()}{-sum(record) & 0xFF:02X}\n:00000001FF\n")
        more = ["-yo", 2 << number % 8, "-ya", (0, 1, 4, 16, 8)[number % 5]]
        more += ["-yt", sorted(GAMEBOY)[number % len(GAMEBOY)], "-yp", f"0x014C=0x{number:02X}"]
        more += ["-yn", f"NUMBER-{number}-OF-MANY"[: number + 1]] if number % 4 else []
        more += ([], ["-yc"], ["-yC"])[number % 3] + (["-ys"] if number % 5 < 2 else [])
        more += ["-yj"] if number % 2 else []
        more += ["-yl", number] if number % 7 == 6 else ["-yk", f"{number:02}"]
        run("makebin", "-Z", *more, "from.ihx", f"{number:02}.gb")
    os.remove("from.ihx")


def gameboy(value, _):
    colour, title = value["colour"], [*value["title"], *value["maker_code"]]
    machine = {0x80: "CGB", 0xC0: "CGB ONLY"}.get(colour, "")
    if value["super_functions"] == 3 and value["old_licensee"] == 0x33:
        machine = "SGB+CGB" if machine else "SGB"
    return {
        "title": text(title if colour & 0x80 else [*title, colour]),
        "version": value["version"],
        "machine": machine,
        "kind": GAMEBOY[value["kind"]],
        "rom": 256 << value["size_of_rom"],
        "ram": (0, 0, 64, 256, 1024, 512)[value["size_of_ram"]],
        "size": 32768 << value["size_of_rom"],
        "licensees": [bytes(value["licensee"]).decode(), value["old_licensee"]],
        "destination": value["destination"],
        "sums": [value["sum"], value["sum_of_all"]],
    }


def gameboy_by_tool(file):
    """What file tells, and by Python's struct what it doesn't; the sums are computed."""
    printed = run("file", "-b", file)
    with open(file, "rb") as image:
        data = image.read()
    kilobits = lambda name: found(rf"{name}: (\d+[KM])bit", printed).replace("M", " 1024").replace("K", " 1") or "0 1"
    size_of = lambda name: int(kilobits(name).split()[0]) * int(kilobits(name).split()[1])
    new, old = struct.unpack_from("2s5xB", data, 0x144)
    (destination,) = struct.unpack_from("B", data, 0x14A)
    return {
        "title": found(r'image: "(.*?)"', printed),
        "version": int(found(r"\(Rev\.(\d+)\)", printed)),
        "machine": found(r"\[(SGB\+CGB|SGB|CGB|CGB ONLY)\]", printed),
        "kind": found(r"\[([^]]*)\](?:,|$)", printed),
        "rom": size_of("ROM"),
        "ram": size_of("RAM"),
        "size": len(data),
        "licensees": [new.decode(), old],
        "destination": destination,
        "sums": [-sum(it + 1 for it in data[0x134:0x14D]) & 0xFF, sum(data[:0x14E] + data[0x150:]) & 0xFFFF],
    }


FORMATS = {
    "gameboy": Format("gameboy", "Cartridge", make_gameboy, gameboy, gameboy_by_tool),
}
