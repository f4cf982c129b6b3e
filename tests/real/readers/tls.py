"""TLS: both sides of connections that Python's ssl makes, compared with tshark."""

import os
import struct

from common import COUNT, Format, run


def make_tls():
    """Both sides of ten connections, which Python's ssl joins through memory."""
    import ssl

    run(
        "openssl",
        "req",
        "-x509",
        "-newkey",
        "rsa:2048",
        "-nodes",
        "-keyout",
        "key",
        "-out",
        "certificate",
        "-days",
        "9",
        "-subj",
        "/CN=a.example",
    )
    for number in range(COUNT // 2):
        client, server = ssl.create_default_context(cafile="certificate"), ssl.SSLContext(ssl.PROTOCOL_TLS_SERVER)
        client.check_hostname = False
        server.load_cert_chain("certificate", "key")
        client.maximum_version = (ssl.TLSVersion.TLSv1_2, ssl.TLSVersion.TLSv1_3)[number % 2]
        client.set_alpn_protocols(["h2", "http/1.1"][: number % 3])
        server.set_alpn_protocols(["h2"])
        if number % 4 == 0:
            ciphers = "ECDHE-RSA-AES128-GCM-SHA256", "ECDHE-RSA-AES256-GCM-SHA384", "DEFAULT"
            client.set_ciphers(ciphers[number // 4 % 3])
        to_client, from_client, to_server, from_server = (ssl.MemoryBIO() for _ in range(4))
        ours = client.wrap_bio(to_client, from_client, server_hostname=f"host{number}.example" if number % 5 else None)
        theirs = server.wrap_bio(to_server, from_server, server_side=True)
        sent, answered = b"", b""
        for turn in range(12):
            for side in (ours, theirs):
                try:
                    side.do_handshake() if turn < 8 else side.write(b"x" * 50 * turn)
                except ssl.SSLWantReadError:
                    pass
            it = from_client.read()
            to_server.write(it)
            sent += it
            it = from_server.read()
            to_client.write(it)
            answered += it
        for name, stream in (("client", sent), ("server", answered)):
            with open(f"{number:02}-{name}.tls", "wb") as file:
                file.write(stream)
    os.remove("key")
    os.remove("certificate")


def tls(value, _):
    """Kinds and lengths of records, and of messages up to the change of keys, and the kinds of extensions."""
    plain, protected = value["records"], value["protected"]
    records = [(it["kind"], it["length"]["magnitude"]) for it in plain]
    for it in protected:
        records += [(20, 1), *((of["kind"], of["length"]["magnitude"]) for of in it["records"])]
    messages = [of for it in plain for of in it.get("handshake", [])]
    hellos = [it.get("client_hello") or it.get("server_hello") for it in messages]
    extensions = [of["kind"] for it in hellos if it and "extensions" in it for of in it["extensions"]["list"]]
    return {
        "records": records,
        "messages": [(it["kind"], it["length"]["magnitude"]) for it in messages],
        "extensions": extensions,
    }


def tls_by_tool(file):
    """By tshark, of the stream in packets of TCP."""
    with open(file, "rb") as stream:
        data = stream.read()
    of_server = "server" in file
    with open("stream.pcap", "wb") as capture:
        capture.write(struct.pack("<IHHiIII", 0xA1B2C3D4, 2, 4, 0, 0, 65535, 101))
        for at in [None, *range(0, len(data), 1400)]:
            part, flags = (b"", 2) if at is None else (data[at : at + 1400], 0x18)
            ports = (443, 40000) if of_server and at is not None else (40000, 443)
            segment = struct.pack(">HHIIBBHHH", *ports, 0 if at is None else at + 1, 0, 0x50, flags, 65535, 0, 0) + part
            packet = (
                struct.pack(">BBHHHBBHII", 0x45, 0, 20 + len(segment), 1, 0x4000, 64, 6, 0, ports[0], ports[1])
                + segment
            )
            capture.write(struct.pack("<IIII", 0, 0, len(packet), len(packet)) + packet)
    fields = (
        "record.content_type",
        "record.opaque_type",
        "record.length",
        "handshake.type",
        "handshake.length",
        "handshake.extension.type",
    )
    command = ["tshark", "-r", "stream.pcap", "-T", "fields", "-E", "separator=|"]
    printed = run(*command, *(word for it in fields for word in ("-e", f"tls.{it}")))
    os.remove("stream.pcap")
    told = [[], [], [], [], [], []]
    for line in printed.splitlines():
        for column, it in zip(told, line.split("|")):
            column += [int(number, 0) for number in it.split(",") if number]
    kinds, opaque, lengths, messages, sizes, extensions = told
    return {
        "records": list(zip(kinds + opaque, lengths)),
        "messages": list(zip(messages, sizes)),
        "extensions": extensions,
    }


FORMATS = {
    "tls": Format("tls", "Records", make_tls, tls, tls_by_tool, ("--whole",)),
}
