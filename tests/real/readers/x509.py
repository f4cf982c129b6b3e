"""X.509: the certificates of Debian, compared with openssl."""

import os
import re
from glob import glob

from common import Format, found, packages, run, take


def make_x509():
    packages("ca-certificates")
    take("mozilla/*.crt")
    for number, it in enumerate(sorted(glob("*.crt"))):
        run("openssl", "x509", "-in", it, "-outform", "DER", "-out", f"{number:03}.der")
        os.remove(it)


SHORT = {
    "550406": "C",
    "55040a": "O",
    "55040b": "OU",
    "550403": "CN",
    "550407": "L",
    "550408": "ST",
    "550405": "serialNumber",
}


def x509(value, _):
    signed = value["content"]["signed"]["content"]

    def name(it):
        parts = [part["content"] for of in it["parts"] for part in of["list"]]
        shown = {bytes(part["kind"]["bytes"]).hex(): bytes(part["value"]["text"]) for part in parts}
        return {SHORT[key]: text.decode(errors="replace") for key, text in shown.items() if key in SHORT}

    version = signed["version"]
    return {
        "version": version[0]["number"] + 1 if version else 1,
        "issuer": name(signed["issuer"]),
        "subject": name(signed["subject"]),
        "serial": int.from_bytes(bytes(signed["serial"]["bytes"]), "big"),
        "extensions": sum(len(it["content"]["list"]) for it in signed["extensions"]),
        "key": len(signed["key"]["content"]["key"]["bytes"]),
        "signature": bytes(value["content"]["signature"]["bytes"]).hex(),
        "times": [bytes(signed["times"]["content"][it]["text"])[-13:].decode() for it in ("from", "to")],
    }


def x509_by_tool(file):
    of = ["openssl", "x509", "-inform", "DER", "-in", file, "-noout", "-nameopt", "utf8,sname,sep_multiline"]
    printed = run(*of, "-text", "-certopt", "no_pubkey", "-serial")
    listed = run("openssl", "asn1parse", "-inform", "DER", "-in", file)
    times = re.findall(r"(?:UTCTIME|GENERALIZEDTIME)\s*:(\S+)", listed)

    def name(which):
        shown = run(*of, f"-{which}")
        return {key: text for key, text in re.findall(r"^\s+(\w+)=(.*)$", shown, re.M) if key in SHORT.values()}

    bits = re.findall(r"hl=(\d) l= *(\d+) prim:\s+BIT STRING", listed)
    signature = re.search(r"Signature Value:\s*((?:[0-9a-f]{2}[:\s]*)+)", printed)[1]
    inside = listed.split("cont [ 3 ]")[-1].count("d=4 ") if "cont [ 3 ]" in listed else 0
    return {
        "version": int(found(r"Version: (\d)", printed)),
        "issuer": name("issuer"),
        "subject": name("subject"),
        "serial": int(found(r"^serial=([0-9A-F]+)", printed), 16),
        "extensions": inside,
        "key": int(bits[0][1]) - 1,
        "signature": re.sub(r"[^0-9a-f]", "", signature),
        "times": [it[-13:] for it in times[:2]],
    }


FORMATS = {
    "x509": Format("x509", "Certificate", make_x509, x509, x509_by_tool),
}
