"""pcapng: the captures of Wireshark's tests, and those of tcpdump's in this form, compared with tshark."""

import os
import shutil
from glob import glob

from common import COUNT, Format, capture_by_tool, plain, run, some, sources
from packets import headers_by_tool, headers_of_value


def make_pcapng():
    sources("tcpdump", "wireshark")
    for number, it in enumerate(some(glob("from/tcpdump*/tests/*.pcap"), COUNT)):
        try:
            run("editcap", "-F", "pcapng", it, f"{number:02}-{os.path.basename(it)}ng")
        except RuntimeError:  # made to break readers
            pass
    for it in glob("from/wireshark*/test/captures/*.pcapng"):
        shutil.move(it, os.path.basename(it))
    shutil.rmtree("from")


def pcapng_order(file):
    with open(file, "rb") as it:
        return "--endian", "big" if it.read(12)[8:] == b"\x1a\x2b\x3c\x4d" else "little"


PACKETS = {2: 32, 3: 12, 6: 28}  # the kinds of blocks that have a packet, and where its bytes are
SUN_ATM = 123


def blocks(value):
    """The blocks of a value that have a packet, with their sections and the places of the packets' bytes."""
    at = 0
    for section in value["sections"]:
        at += sum(plain(it["length"]) for it in (section, *section["before"], *section["interfaces"]))
        for it in section["blocks"]:
            if it["kind"] in PACKETS:
                yield section, it, at + PACKETS[it["kind"]]
            at += plain(it["length"])


def sizes(value):
    """The sizes of all packets. (tshark counts those of SunATM without the 4 bytes before a cell.)"""
    for section, it, _ in blocks(value):
        packet = it["body"]["packet"]
        less = 4 if section["interfaces"][packet.get("interface", 0)]["link"] == SUN_ATM else 0
        captured = plain(packet["captured"])
        yield captured - less, plain(packet.get("length_on_wire", captured)) - less


def captured(value, file):
    """The packets of a value, or None where one is bytes, each with the bytes that were captured."""
    with open(file, "rb") as capture:
        for _, it, at in blocks(value):
            capture.seek(at)
            packet = it["body"]["packet"]
            yield packet["frame"].get("packet"), capture.read(plain(packet["captured"]))


def pcapng(value, file):
    return {"sizes": list(sizes(value))} | headers_of_value(captured(value, file))


def pcapng_by_tool(file):
    return {"sizes": capture_by_tool(file)["sizes"]} | headers_by_tool(file)


FORMATS = {"pcapng": Format("pcapng", "Capture", make_pcapng, pcapng, pcapng_by_tool, pcapng_order)}
