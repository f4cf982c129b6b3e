"""DHCP: messages that scapy makes, compared with tshark."""

import os
import struct
from ipaddress import ip_address

from common import COUNT, Format, run, text


DHCP = """
import random, sys
from scapy.layers.dhcp import BOOTP, DHCP

def message(number):
    random.seed(number)
    address = lambda: f"192.0.2.{random.randrange(1, 255)}"
    kinds = [
        ("subnet_mask", "255.255.255.0"), ("router", address()), ("router", address(), address()),
        ("time_server", address()), ("name_server", address(), address(), address()), ("hostname", f"host{number}"),
        ("domain", "example.com"), ("root_disk_path", "/export/root"), ("broadcast_address", "192.0.2.255"),
        ("interface-mtu", 1500), ("NTP_server", address(), address()), ("NetBIOS_node_type", 8),
        ("requested_addr", address()), ("lease_time", random.randrange(2**32)), ("server_id", address()),
        ("param_req_list", [1, 3, 6, 15, 42, 51, 119, 121][: number % 8 + 1]), ("error_message", "not here"),
        ("max_dhcp_size", 576 + number * 50), ("renewal_time", number * 900), ("rebinding_time", number * 1575),
        ("vendor_class_id", "PXEClient:Arch:00000"), ("client_id", b"\\x01" + random.randbytes(6)),
        ("relay_agent_information", b"\\x01\\x04port\\x02\\x03box"), ("tftp_server_name", b"boot.example.com"),
        ("boot-file-name", b"pxelinux.0"), ("classless_static_routes", ["198.51.100.0/24:192.0.2.1"]),
        ("client_FQDN", b"\\x01\\x00\\x00host.example.com"), ("default_ttl", 64), ("vendor_specific", b"\\x01\\x02ab"),
        ("pxe_client_architecture", b"\\x00\\x07"), ("NIS_domain", b"nis"), ("ip-forwarding", 1), "pad",
    ]
    options = [("message-type", number % 18 + 1)] + random.sample(kinds, min(number * 2, len(kinds)))
    it = BOOTP(
        op=1 + number % 2, hops=number % 3, xid=random.randrange(2**32), secs=number * 7,
        flags="B" if number % 4 else 0, ciaddr=address(), yiaddr=address(), giaddr=address(),
        siaddr=address() if number % 3 else "0.0.0.0", chaddr=random.randbytes(6),
        sname=b"server.example" * (number % 2), file=b"boot.img" * (number % 3 == 1),
    )
    data = bytes(it / DHCP(options=[*options, "end"]))
    return data.ljust(300, b"\\0") if number % 2 else data
for number in range(int(sys.argv[1])):
    with open(f"{number:02}.dhcp", "wb") as file:
        file.write(message(number))
"""


def make_dhcp():
    run("/usr/bin/python3", "-c", DHCP, COUNT)


def dhcp_option(it):
    """The bytes of an option's value."""
    if "seconds" in it:
        return it["seconds"].to_bytes(4, "big")
    if "longest" in it:
        return it["longest"].to_bytes(2, "big")
    if "address" in it or "addresses" in it:
        return b"".join(bytes(of["bytes"]) for of in it.get("addresses", [it.get("address")]))
    if "message" in it:
        return bytes((it["message"],))
    return bytes(next(it[name] for name in ("text", "asked", "identifier", "other") if name in it))


def dhcp(value, _):
    it = value["message"]
    facts = {"options": [], "flags": it["flags"]["broadcast"] << 15 | it["flags"]["reserved"]}
    for name in ("kind", "hardware", "hardware_length", "hops", "transaction", "seconds"):
        facts[name] = it[name]
    for name in ("client", "yours", "server", "relay"):
        facts[name] = str(ip_address(bytes(it[name]["bytes"])))
    for name in ("server_name", "boot_file"):
        facts[name] = text(it[name])
    for of in it["options"]:
        if of["tag"]:
            facts["options"] += [of["tag"], of["size"]["magnitude"], dhcp_option(of).hex()]
    return facts | {"hardware_address": bytes(it["hardware_address"]).hex(":")}


DHCP_FIELDS = {
    "kind": "type",
    "hardware": "hw.type",
    "hardware_length": "hw.len",
    "hops": "hops",
    "transaction": "id",
    "seconds": "secs",
    "flags": "flags",
    "client": "ip.client",
    "yours": "ip.your",
    "server": "ip.server",
    "relay": "ip.relay",
    "hardware_address": "hw.mac_addr",
    "server_name": "server",
    "boot_file": "file",
    "tags": "option.type",
    "sizes": "option.length",
    "values": "option.value",
}


def dhcp_by_tool(file):
    """By tshark, of the message in a packet of UDP."""
    with open(file, "rb") as message:
        data = message.read()
    with open("message.pcap", "wb") as capture:
        data = struct.pack(">HHHH", 68, 67, 8 + len(data), 0) + data
        data = struct.pack(">BBHHHBBHII", 0x45, 0, 20 + len(data), 1, 0, 64, 17, 0, 1, 2) + data
        capture.write(struct.pack("<IHHiIII", 0xA1B2C3D4, 2, 4, 0, 0, 65535, 101))
        capture.write(struct.pack("<IIII", 0, 0, len(data), len(data)) + data)
    fields = [word for it in DHCP_FIELDS.values() for word in ("-e", f"dhcp.{it}")]
    printed = run("tshark", "-r", "message.pcap", "-T", "fields", "-E", "separator=|", *fields)
    os.remove("message.pcap")
    told = dict(zip(DHCP_FIELDS, printed.rstrip("\n").split("|")))
    first = {name: it.split(",")[0] for name, it in told.items()}  # (option 61 tells a hardware again)
    facts = {name: int(first[name], 0) for name in list(told)[:7]} | {name: first[name] for name in list(told)[7:-3]}
    # (it tells a filling and the end as options of kind 0)
    tags, sizes, values = ([it for it in told[name].split(",") if it != "0"] for name in ("tags", "sizes", "values"))
    options = [of for tag, size, it in zip(tags, sizes, values, strict=True) for of in (int(tag), int(size), it)]
    return facts | {"options": options}


FORMATS = {
    "dhcp": Format("dhcp", "Message", make_dhcp, dhcp, dhcp_by_tool),
}
