"""pcap: the captures of tcpdump's tests, compared with tshark."""

import os
import shutil
import struct
from glob import glob

from common import COUNT, Format, capture_by_tool, copy, plain, some, sources
from packets import headers_by_tool, headers_of_value

MAGIC = tuple(struct.pack(order + "I", it) for it in (0xA1B2C3D4, 0xA1B23C4D) for order in "<>")


def magic(file):
    with open(file, "rb") as it:
        return it.read(4)


def make_pcap():
    sources("tcpdump")
    captures = [it for it in glob("from/**/tests/*.pcap", recursive=True) if magic(it) in MAGIC]
    copy(some(captures, 2 * COUNT))
    shutil.rmtree("from")


def pcap_order(file):
    return "--endian", "little" if magic(file) in MAGIC[::2] else "big"


def captured(value, file):
    """The packets of a value, or None where one is bytes, each with the bytes that were captured."""
    with open(file, "rb") as capture:
        capture.seek(24)
        for it in value["packets"]:
            capture.seek(16, os.SEEK_CUR)
            yield it["frame"].get("packet"), capture.read(plain(it["captured"]))


def pcap(value, file):
    digits = 9 if value["magic"] == 0xA1B23C4D else 6
    facts = {"times": [], "sizes": []}
    for it in value["packets"]:
        facts["times"].append(f"{it['seconds']}.{it['fraction']:0{digits}}".ljust(20, "0"))
        facts["sizes"].append((plain(it["captured"]), plain(it["length"])))
    return facts | headers_of_value(captured(value, file))


def pcap_by_tool(file):
    return capture_by_tool(file) | headers_by_tool(file)


FORMATS = {"pcap": Format("pcap", "Capture", make_pcap, pcap, pcap_by_tool, pcap_order)}
