"""USB descriptors of devices that tests describe for umockdev, compared with tshark."""

import os
import re
import shutil
import struct
from xml.etree.ElementTree import fromstring

from common import Format, plain, run, sources


def make_usb():
    sources("umockdev")
    sources("gnome-settings-daemon", "libfprint", "usbguard", of="trixie")
    seen = {}
    for at, _, names in os.walk("from"):
        for path in sorted(os.path.join(at, it) for it in names):
            for digits in descriptors(path):
                seen.setdefault(bytes.fromhex(digits), re.sub(r"\W", "_", path[5:])[-40:])
    shutil.rmtree("from")
    for number, (data, name) in enumerate(seen.items()):
        with open(f"{number:02}-{name}.usb", "wb") as file:
            file.write(data)


def descriptors(path):
    """The digits of the descriptors in a description of devices as umockdev reads it."""
    if not os.path.isfile(path) or os.path.islink(path):
        return []
    with open(path, "rb") as file:
        lines = [it.rstrip() for it in file if it.startswith(b"H: descriptors=")]
    return [it.split(b"=")[1].decode() for it in lines]


DEVICE = {"bcdUSB": "usb_version", "idVendor": "vendor", "idProduct": "product", "bcdDevice": "version"}
DEVICE |= {"bDeviceClass": "class", "bNumConfigurations": "configuration_count"}
CONFIGURATION = {"wTotalLength": "total", "bNumInterfaces": "interface_count", "bConfigurationValue": "number"}
INTERFACE = {"bInterfaceNumber": "number", "bAlternateSetting": "alternative", "bNumEndpoints": "end_point_count"}
INTERFACE |= {"bInterfaceClass": "class", "bInterfaceSubClass": "subclass", "bInterfaceProtocol": "protocol"}


def usb(value, _):
    facts = {name: [plain(value["device"][ours])] for name, ours in DEVICE.items()}
    configurations = value["configurations"]
    facts |= {name: [plain(it[ours]) for it in configurations] for name, ours in CONFIGURATION.items()}
    every = [it for of in configurations for it in of["descriptors"]]
    interfaces = [it["interface"] for it in every if "interface" in it]
    facts |= {name: [it[ours] for it in interfaces] for name, ours in INTERFACE.items()}
    points = [it["end_point"] for it in every if "end_point" in it]
    facts["bEndpointAddress"] = [it["address"]["in"] << 7 | it["address"]["number"] for it in points]
    facts["wMaxPacketSize"] = [plain(it["packet_size"]) for it in points]
    return facts


def answer(number, kind, data):
    """The packets of a request of a descriptor and of its answer, as Linux captures them."""
    setup = struct.pack("<BBHHH", 0x80, 6, kind << 8, 0, len(data))
    packets = []
    for event, body in ((b"S", b""), (b"C", data)):
        asks = event == b"S"
        head = struct.pack("<QcBBBH", number, event, 2, 0x80, 1, 1) + (b"\0<" if asks else b"-\0")
        head += struct.pack("<qiiII", 0, number, 0, len(data), len(body)) + (setup if asks else bytes(8)) + bytes(16)
        packets.append(struct.pack("<IIII", number, 0, 64 + len(body), 64 + len(body)) + head + body)
    return b"".join(packets)


def usb_by_tool(file):
    """By tshark, of a capture in which the descriptors are asked for."""
    with open(file, "rb") as it:
        data = it.read()
    with open("answers.pcap", "wb") as capture:
        capture.write(struct.pack("<IHHiIII", 0xA1B2C3D4, 2, 4, 0, 0, 65535, 220))
        capture.write(answer(1, 1, data[:18]))
        at, number = 18, 2
        while at < len(data):
            (size,) = struct.unpack_from("<H", data, at + 2)
            capture.write(answer(number, 2, data[at : at + size]))
            at, number = at + size, number + 1
    names = [*DEVICE, *CONFIGURATION, *INTERFACE, "bEndpointAddress", "wMaxPacketSize"]
    fields = [word for it in names for word in ("-e", f"usb.{it}")]
    printed = run("tshark", "-r", "answers.pcap", "-T", "fields", "-E", "separator=|", *fields)
    tree = fromstring(run("tshark", "-r", "answers.pcap", "-T", "pdml").encode())
    os.remove("answers.pcap")
    facts = {name: [] for name in names}
    for line in printed.splitlines():
        for name, it in zip(names, line.split("|")):
            facts[name] += [int(number, 0) for number in it.split(",") if number]
    # (a descriptor of a video class gives the address again)
    points = tree.iterfind(".//field[@show='ENDPOINT DESCRIPTOR']/field[@name='usb.bEndpointAddress']")
    return facts | {"bEndpointAddress": [int(it.get("show"), 0) for it in points]}


FORMATS = {"usb": Format("usb", "Descriptors", make_usb, usb, usb_by_tool)}
