"""CAN: captures that scapy makes, compared with tshark."""

from common import COUNT, Format, run


CAN = """
import random, sys
from scapy.layers.can import CAN, CANFD
from scapy.packet import Raw
from scapy.utils import wrpcap

def frame(number, at):
    long = random.random() < 0.4
    it = {"identifier": random.getrandbits(29 if long else 11), "flags": ["extended"] * long}
    kind = random.randrange(6)
    if kind == 0 and number % 2:
        size = random.choice((0, 1, 8, 12, 16, 20, 24, 32, 48, 64))
        it = CANFD(**it, fd_flags=4 | random.getrandbits(2), data=random.randbytes(size))
    elif kind == 1:
        it["flags"] += ["remote_transmission_request"]
        it = CAN(**it, length=random.randrange(9))
    elif kind == 2:
        it = CAN(identifier=1 << random.randrange(9), flags="error", data=random.randbytes(8))
    else:
        it = CAN(**it, data=random.randbytes(random.randrange(9)))
    data = bytes(it)
    # as Linux has it, with room for 8 or 64 bytes, or short
    it = Raw(data.ljust(72 if isinstance(it, CANFD) else 16, b"\\0") if number % 3 else data)
    it.time = 1700000000 + number + at / 1000
    return it

for number in range(int(sys.argv[1])):
    random.seed(number)
    frames = [frame(number, at) for at in range(1 + number * 5)]
    wrpcap(f"{number:02}.pcap", frames, linktype=227, endianness="<", nano=number % 4 == 3)
"""


def make_can():
    run("/usr/bin/python3", "-c", CAN, COUNT)


def can(value, _):
    facts = {"times": [], "frames": []}
    digits = 9 if value["magic"] == 0xA1B23C4D else 6
    for it in value["packets"]:
        frame, filling = it["frame"], it["filling"]
        head, flags = frame["identifier"], frame["flags"]
        facts["times"].append(f"{it['seconds']}.{it['fraction']:0{digits}}".ljust(20, "0"))
        flexible = flags["flexible"] or it["captured"]["magnitude"] == 72
        told = [it["length"]["magnitude"], frame["length"], head["error"]]
        if not head["error"]:
            told += [head["number"], head["extended"], 0 if flexible else head["remote"]]
            told += [flags["fast_data"], flags["sender_passive"]] if flexible else [0, 0]
            told += [bytes(frame["data"]).hex()]
        facts["frames"].append(told)
    return facts


def can_by_tool(file):
    names = "frame.time_epoch frame.len can.len can.flags.err can.id can.flags.xtd can.flags.rtr"
    names += " canfd.flags.brs canfd.flags.esi data.data"
    fields = [word for it in names.split() for word in ("-e", it)]
    facts = {"times": [], "frames": []}
    command = ["tshark", "-r", file, "-T", "fields", "-E", "separator=|", "--disable-protocol", "autosar-nm"]
    for line in run(*command, *fields).splitlines():
        time_of, *numbers, data = line.split("|")
        numbers = [int(it or "0") for it in numbers]
        facts["times"].append(time_of)
        # (of an error it tells the kind)
        facts["frames"].append(numbers[:3] if numbers[2] else [*numbers, data])
    return facts


FORMATS = {
    "can": Format("can", "Capture", make_can, can, can_by_tool, ("--endian", "little")),
}
