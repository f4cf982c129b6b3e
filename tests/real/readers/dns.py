"""DNS: messages that dnspython makes and reads."""

import struct
from ipaddress import ip_address

from common import COUNT, Format, by_python, run


DNS = """
import dns.message, dns.update, json, random, sys

def message(number):
    random.seed(number)
    if number % 10 == 9:
        it = dns.update.UpdateMessage("example.com")
        it.present("www", "A")
        it.absent("old")
        it.add("new", 300, "A", "192.0.2.9")
        it.delete("www", "TXT")
        it.replace("mail", 60, "MX", "10 mx", "20 mx2")
        return it
    below = lambda: random.choice(["", "a.long.part."]) + "example." + random.choice(["com", "org"])
    host = lambda: f"host{random.randrange(9)}.{below()}."
    bodies = [
        lambda: f"A 192.0.2.{random.randrange(256)}", lambda: f"AAAA 2001:db8::{random.randrange(9999)}",
        lambda: f"NS {host()}", lambda: f"CNAME {host()}", lambda: f"PTR {host()}", lambda: f"MX 10 {host()}",
        lambda: f"SOA {host()} {host()} {random.randrange(2**32)} 7200 900 1209600 300",
        lambda: 'TXT "v=one" "' + "x" * random.randrange(200) + '"', lambda: f"SRV 1 2 5060 {host()}",
        lambda: 'CAA 0 issue "a.example"', lambda: "DS 60485 5 1 " + "2B" * 20, lambda: "TLSA 3 1 1 " + "AB" * 32,
        lambda: "HTTPS 1 . alpn=h2 port=443", lambda: "SSHFP 2 1 " + "1F" * 20,
    ]
    flags = ["RD", "QR RD RA", "QR AA", "QR AA TC", "QR RD RA AD", "RD CD"][number % 6]
    lines = [f"id {random.randrange(65536)}", f"opcode {['QUERY', 'NOTIFY'][number == 7]}", f"flags {flags}"]
    lines += [f"rcode {['NOERROR', 'NXDOMAIN', 'SERVFAIL'][number % 3]}", "edns 0" * (number % 2)]
    lines += [";QUESTION", f"{host()} IN {['A', 'ANY', 'HTTPS', 'PTR'][number % 4]}"]
    for section in ("ANSWER", "AUTHORITY", "ADDITIONAL"):
        lines.append(f";{section}")
        for _ in range(number % 20 // 2 if "QR" in flags else 0):
            lines.append(f"{host()} {random.randrange(99999)} IN {random.choice(bodies)()}")
    it = dns.message.from_text("\\n".join(line for line in lines if line), one_rr_per_rrset=True)
    if number % 4 == 1:
        it.use_edns(0, 0x8000, 1232, options=[dns.edns.GenericOption(10, b"COOKIE!!" * (number % 3 + 1))])
    return it

def body(it):
    whole = [str(getattr(it, name)) for name in SHOWN.get(it.rdtype, ())]
    if it.rdtype == 16:
        return [part.hex() for part in it.strings]
    return whole or [it.to_generic().data.hex()]

SHOWN = {1: ["address"], 28: ["address"], 2: ["target"], 5: ["target"], 12: ["target"], 15: ["preference", "exchange"],
         6: ["mname", "rname", "serial", "refresh", "retry", "expire", "minimum"],
         33: ["priority", "weight", "port", "target"]}

def facts(data):
    it = dns.message.from_wire(data, one_rr_per_rrset=True)
    told = {"identifier": it.id, "flags": int(it.flags)}
    for name, section in zip(("questions", "answers", "authorities", "additionals"), it.sections):
        told[name] = []
        for of in section:
            head = [str(of.name), of.rdtype, of.rdclass if of.deleting is None else of.deleting]
            told[name].append(head if name == "questions" else [*head, of.ttl, *(body(of[0]) if len(of) else [])])
    if it.opt:
        options = [text for of in it.options for text in (str(int(of.otype)), of.to_wire().hex())]
        told["additionals"].append([".", 41, it.payload, it.ednsflags, *options])
    return told

def facts_of(name):
    with open(name, "rb") as file:
        return facts(file.read())
"""
MAKE = """
for number in range(int(sys.argv[1])):
    with open(f"{number:02}.dns", "wb") as file:
        file.write(message(number).to_wire(max_size=65535))
"""


def make_dns():
    run("/usr/bin/python3", "-c", DNS + MAKE, COUNT)


def dns_name(it, data):
    """The name with what its end refers to."""
    labels, end = [bytes(of["text"]).decode("latin-1") for of in it["labels"]], it["end"]
    at = end["elsewhere"]["at"] if "elsewhere" in end else None
    while at is not None and data[at]:
        if data[at] >= 0xC0:
            at = struct.unpack_from(">H", data, at)[0] & 0x3FFF
        else:
            labels.append(data[at + 1 : at + 1 + data[at]].decode("latin-1"))
            at += 1 + data[at]
    return ".".join([*labels, ""]) if labels else "."


def dns_body(it, data):
    """The words of a record's body, as dnspython has them."""
    if "address" in it:
        return [str(ip_address(bytes(it["address"])))]
    if "texts" in it:
        return [bytes(of["text"]).hex() for of in it["texts"]]
    if "options" in it:
        return [of for part in it["options"] for of in (str(part["code"]), bytes(part["value"]).hex())]
    if "other" in it:
        return [bytes(it["other"]).hex()] if it["other"] else []
    body = it["domain"] if "domain" in it else it.get("authority") or it.get("mail") or it.get("service") or {}
    parts = [body] if "labels" in body else body.values()
    return [dns_name(of, data) if isinstance(of, dict) else str(of) for of in parts]


def dns(value, file):
    with open(file, "rb") as message:
        data = message.read()
    flags, bits = value["flags"], 0
    for name, size in zip(flags, (1, 4, 1, 1, 1, 1, 1, 1, 1, 4)):
        bits = bits << size | flags[name]
    facts = {"identifier": value["identifier"], "flags": bits}
    facts["questions"] = [[dns_name(it["name"], data), it["kind"], it["class"]] for it in value["questions"]]
    for name in ("answers", "authorities", "additionals"):
        facts[name] = [
            [dns_name(it["name"], data), it["kind"], it["class"], it["time_to_live"], *dns_body(it, data)]
            for it in value[name]
        ]
    return facts


def dns_by_tool(file):
    return by_python(DNS, file)


FORMATS = {
    "dns": Format("dns", "Message", make_dns, dns, dns_by_tool, ("--whole",)),
}
