"""The headers of captured packets: those in a value of pcap.pk or pcapng.pk, and those that tshark finds.

Both are facts by tshark's names: the numbers of the packets that have them, and their values. They are of the outermost
headers, which tshark finds first: in a tunnel and in a report of ICMP there are more. A header that was cut is bytes in
the pickles, so only whole headers are taken from tshark.
"""

import subprocess
from collections import defaultdict
from ipaddress import ip_address
from xml.etree.ElementTree import iterparse

from common import plain
from readers.dns import dns_body, dns_name

AS_IT_IS = (  # each packet by itself, with the numbers that it has
    "ip.defragment:FALSE", "ipv6.defragment:FALSE", "tcp.desegment_tcp_streams:FALSE",
    "tcp.relative_sequence_numbers:FALSE", "tcp.analyze_sequence_numbers:FALSE",
)
LINKS = "eth", "sll", "vlan"
UNNAMED_LINKS = "geninfo", "frame", "null", "raw"  # of which nothing is compared
NETWORKS = {"arp": 28, "ip": 20, "ipv6": 40}  # with the bytes of their headers
TRANSPORTS = {"tcp": 20, "udp": 8, "icmp": 8, "icmpv6": 8}
BROKEN = "Non-zero header padding"  # what tshark says of options that don't fill a header of TCP, which is bytes then
MESSAGES = {"dns": 12, "mdns": 12, "llmnr": 12, "dhcp": 240}
LINK_SIZES = {"ethernet": 14, "cooked": 16, "cooked_2": 20, "family": 4}
FIELDS = {
    "eth": "dst src",
    "vlan": "priority dei id",
    "sll": "pkttype hatype halen",
    "arp": "hw.type proto.type opcode src.hw_mac src.proto_ipv4 dst.hw_mac dst.proto_ipv4",
    "ip": "hdr_len dsfield len id flags.df flags.mf frag_offset ttl proto checksum src dst",
    "ipv6": "tclass flow plen nxt hlim src dst",
    "tcp": "srcport dstport seq_raw ack_raw hdr_len flags window_size_value checksum urgent_pointer option_kind"
    " options.mss_val options.wscale.shift options.timestamp.tsval options.timestamp.tsecr",
    "udp": "srcport dstport length checksum",
    "icmp": "type code checksum ident seq",
    "icmpv6": "type code checksum echo.identifier echo.sequence_number",
    "dns": "id flags count.queries count.answers count.auth_rr count.add_rr qry.name qry.type resp.name resp.type"
    " resp.ttl a aaaa",
    "dhcp": "type hw.type hw.len hops id secs flags ip.client ip.your ip.server ip.relay",
}


def number(*bits):
    """The number of some fields of a struct, each a value and its bits."""
    whole = 0
    for value, size in bits:
        whole = whole << size | value
    return whole


def address(it):
    return str(ip_address(bytes(it)))


def hexadecimal(it):
    return bytes(it).hex(":")


def ipv4(it):
    part = it["fragment"]
    yield from zip(
        FIELDS["ip"].split(),
        (
            plain(it["header"]) * 4, it["service"], plain(it["total"]), it["identification"], part["unfragmented"],
            part["more"], plain(part["place"]) * 8, it["time_to_live"], it["protocol"], it["checksum"],
            address(it["source"]), address(it["destination"]),
        ),
    )


def ipv6(it):
    first = it["first"]
    values = first["class"], first["flow"], plain(it["length"]), it["next"], it["hops"]
    yield from zip(FIELDS["ipv6"].split(), (*values, address(it["source"]), address(it["destination"])))


def arp(it):
    values = it["hardware"], it["protocol"], it["operation"], hexadecimal(it["sender_hardware"]), address(it["sender"])
    yield from zip(FIELDS["arp"].split(), (*values, hexadecimal(it["target_hardware"]), address(it["target"])))


FLAGS = "nonce window_reduced congestion urgent acknowledges push reset synchronize finish".split()


def tcp(it):
    flags = it["flags"]
    bits = number((flags["reserved"], 3), *((flags[name], 1) for name in FLAGS))
    values = it["source_port"], it["destination_port"], it["sequence"], it["acknowledgment"], plain(flags["header"]) * 4
    yield from zip(FIELDS["tcp"].split(), (*values, bits, it["window"], it["checksum"], it["urgent_at"]))
    for [option] in (of.values() for of in it.get("options", [])):
        yield "option_kind", option["kind"]
        for name, ours in ("mss_val", "size"), ("wscale.shift", "shift"), ("timestamp.tsval", "value"):
            if ours in option:
                yield f"options.{name}", option[ours]
        if "echo" in option:
            yield "options.timestamp.tsecr", option["echo"]


def udp(it):
    values = it["source_port"], it["destination_port"], plain(it["length"]), it["checksum"]
    yield from zip(FIELDS["udp"].split(), values)


def icmp(it, echo):
    yield from (("type", it["kind"]), ("code", it["code"]), ("checksum", it["checksum"]))
    if "echo" in it["rest"]:
        yield from zip(echo, it["rest"]["echo"].values())


def host(it, data):
    return dns_name(it, data)[:-1] or "."


def dns(it, data):
    """The facts of a message of DNS, whose bytes have the names that its own refer to."""
    sizes = 1, 4, 1, 1, 1, 1, 1, 1, 1, 4
    yield from (("id", it["identifier"]), ("flags", number(*zip(it["flags"].values(), sizes))))
    counts = "question_count", "answer_count", "authority_count", "additional_count"
    yield from zip(("count.queries", "count.answers", "count.auth_rr", "count.add_rr"), (it[name] for name in counts))
    for of in it["questions"]:
        yield from (("qry.name", host(of["name"], data)), ("qry.type", of["kind"]))
    for of in it["answers"] + it["authorities"] + it["additionals"]:
        yield from (("resp.name", host(of["name"], data)), ("resp.type", of["kind"]))
        if of["kind"] != 41:
            yield "resp.ttl", of["time_to_live"]
        if "address" in of:
            yield "a" if of["kind"] == 1 else "aaaa", dns_body(of, data)[0]


def dhcp(it):
    names = "kind", "hardware", "hardware_length", "hops", "transaction", "seconds"
    flags = number((it["flags"]["broadcast"], 1), (it["flags"]["reserved"], 15))
    addresses = (address(it[name]["bytes"]) for name in ("client", "yours", "server", "relay"))
    yield from zip(FIELDS["dhcp"].split(), (*(it[name] for name in names), flags, *addresses))


def headers(packet, data):
    """The layers of a packet of a pickle's value, each with its facts. `data` are the captured bytes."""
    link, content = packet["link_header"], packet["content"]
    [(name, of)] = link.items() if link else [("", {})]
    start = LINK_SIZES.get(name, 0)
    if name == "ethernet":
        yield "eth", (("dst", hexadecimal(of["destination"])), ("src", hexadecimal(of["source"])))
        for tag in of["tags"]:
            yield "vlan", zip(FIELDS["vlan"].split(), tag["tag"].values())
        start += 4 * len(of["tags"])
    if name == "cooked":
        yield "sll", zip(FIELDS["sll"].split(), (of["way"], of["hardware"], plain(of["address_size"])))
    if "arp" in content:
        yield "arp", arp(content["arp"])
    if "ip" in content:
        yield from network(content["ip"], data, start)


def network(it, data, start):
    head = it["header"]
    if head["version"] == 4:
        yield "ip", ipv4(head["ipv4"])
        start += plain(head["ipv4"]["header"]) * 4
    else:
        yield "ipv6", ipv6(head["ipv6"])
        extensions = [part for of in head["extensions"] for part in (*of["before"], of)]
        start += 40 + sum(8 + 8 * of["length"] for of in extensions) + 8 * len(head["fragments"])
    payload = it.get("payload", {})
    if "tcp" in payload:
        yield "tcp", tcp(payload["tcp"])
    if "udp" in payload:
        yield "udp", udp(payload["udp"])
        content = payload["udp"]["content"]
        yield from (("dns", dns(of, data[start + 8 :])) for of in content.get("dns", []))
        yield from (("dhcp", dhcp(of)) for of in content.get("dhcp", []))
    if "icmp" in payload:
        name = "icmp" if head["version"] == 4 else "icmpv6"
        yield name, icmp(payload["icmp"], FIELDS[name].split()[3:])


def headers_of_value(packets):
    """The facts of the packets of a value, each with the bytes of it that were captured."""
    facts = defaultdict(list)
    for place, (packet, data) in enumerate(packets, 1):
        for layer, of in headers(packet, data) if packet else ():
            for name, value in of:
                facts[f"{layer}.{name}"].append((place, value))
    return facts


def value_of(field):
    """What tshark shows of a field, as a number where it is one."""
    shown = field.get("show")
    try:
        return int(shown, 0)
    except ValueError:
        return "." if shown == "<Root>" else shown


def whole_layers(packet):
    """The outermost layers of a packet as tshark tells them, if their headers were captured whole."""
    protos = {it.get("name"): it for it in packet.iterfind("proto")}
    # (a header of IPv6 is bytes in the pickles if one of its extensions was cut)
    is_cut = "_ws.short" in protos and "IPv6" in protos["_ws.short"].get("showname") and not TRANSPORTS.keys() & protos
    chain = [{} if is_cut else NETWORKS, TRANSPORTS, MESSAGES]
    for proto in packet.iterfind("proto"):
        name = proto.get("name")
        if name in LINKS and len(chain) == 3:
            yield name, proto
        elif chain and name in chain[0]:
            if proto.find(f".//field[@show='{BROKEN}']") is not None:
                return
            # (an IPv6 header that is announced as IPv4 is told as both, the first without its addresses)
            is_empty = name == "ip" and proto.find(".//field[@name='ip.dst']") is None
            if int(proto.get("size")) >= chain[0][name] and not is_empty:
                chain.pop(0)
                yield name, proto
        elif name not in UNNAMED_LINKS and not name.startswith("ipv6."):
            return


def headers_by_tool(file):
    """The facts of the packets of a capture, by tshark."""
    options = [word for it in AS_IT_IS for word in ("-o", it)]
    command = ["tshark", "-n", "-r", file, *options, "-T", "pdml"]
    facts, place = defaultdict(list), 0
    with subprocess.Popen(command, stdout=subprocess.PIPE, stderr=subprocess.DEVNULL) as running:
        for _, packet in iterparse(running.stdout):
            if packet.tag != "packet":
                continue
            place += 1
            for layer, proto in whole_layers(packet):
                layer = {"mdns": "dns", "llmnr": "dns"}.get(layer, layer)
                wanted = {f"{layer}.{name}" for name in FIELDS[layer].split()}
                for field in proto.iter("field"):
                    if field.get("name") in wanted:
                        facts[field.get("name")].append((place, value_of(field)))
            packet.clear()
    return facts
