"""DER: keys, requests, certificates and signatures of openssl, compared with its asn1parse."""

import os
import re
from glob import glob

from common import Format, run


def make_der():
    keys = {
        "rsa": ("RSA", "rsa_keygen_bits:2048"),
        "pss": ("RSA-PSS", "rsa_keygen_bits:1024"),
        "p256": ("EC", "ec_paramgen_curve:P-256"),
        "p521": ("EC", "ec_paramgen_curve:P-521"),
        "p384": ("EC", "ec_paramgen_curve:P-384"),
        "p224": ("EC", "ec_paramgen_curve:P-224"),
        "p192": ("EC", "ec_paramgen_curve:P-192"),
        "secp256k1": ("EC", "ec_paramgen_curve:secp256k1"),
        "brainpool": ("EC", "ec_paramgen_curve:brainpoolP256r1"),
        "explicit": ("EC", "ec_paramgen_curve:P-256", "ec_param_enc:explicit"),
        "rsa-small": ("RSA", "rsa_keygen_bits:1024"),
        "ed25519": ("ED25519",),
        "ed448": ("ED448",),
        "x25519": ("X25519",),
        "x448": ("X448",),
    }
    with open("settings", "w") as file:
        file.write("[ca]\ndefault_ca=a\n[a]\ndatabase=list\ndefault_md=sha256\ncrlnumber=number\ndefault_crl_days=9\n")
    with open("list", "w") as file:
        times = "301231235959Z", "251231235959Z,keyCompromise"
        file.writelines(f"R\t{times[0]}\t{times[1]}\t{it:04}\tunknown\t/CN=a{it}\n" for it in range(1, 40))
    with open("number", "w") as file:
        file.write("01\n")
    kept = ["settings", "list", "number"]
    for name, (kind, *options) in keys.items():
        more = [word for it in options for word in ("-pkeyopt", it)]
        run("openssl", "genpkey", "-algorithm", kind, *more, "-out", name)
        run("openssl", "pkey", "-in", name, "-outform", "DER", "-out", f"{name}-key.der")
        run("openssl", "pkey", "-in", name, "-pubout", "-outform", "DER", "-out", f"{name}-public.der")
        kept.append(name)
        if name in ("x25519", "x448"):
            continue
        of = ["-new", "-key", name, "-subj", f"/C=DE/O=an example/CN={name}", "-addext", "subjectAltName=DNS:a.example"]
        run("openssl", "req", *of, "-outform", "DER", "-out", f"{name}-request.der")
        run("openssl", "req", "-x509", *of, "-days", "9", "-out", f"{name}.pem")
        run("openssl", "x509", "-in", f"{name}.pem", "-outform", "DER", "-out", f"{name}-certificate.der")
        kept.append(f"{name}.pem")
    of = ["-keyfile", "rsa", "-cert", "rsa.pem", "-config", "settings"]
    run("openssl", "ca", "-gencrl", *of, "-out", "revoked.pem")
    run("openssl", "crl", "-in", "revoked.pem", "-outform", "DER", "-out", "revoked.der")
    run("openssl", "rsa", "-in", "rsa", "-traditional", "-outform", "DER", "-out", "rsa-traditional.der")
    run("openssl", "ec", "-in", "p256", "-outform", "DER", "-out", "ec-traditional.der")
    both = ["-certfile", "rsa.pem", "-certfile", "p521.pem"]
    run("openssl", "crl2pkcs7", "-nocrl", *both, "-outform", "DER", "-out", "several.der")
    run("openssl", "ocsp", "-issuer", "rsa.pem", "-cert", "p256.pem", "-reqout", "question.der")
    run("openssl", "ts", "-query", "-data", "list", "-cert", "-out", "time-question.der")
    signer = ["-signer", "p256.pem", "-inkey", "p256", "-in", "list", "-outform", "DER"]
    run("openssl", "cms", "-sign", "-binary", *signer, "-out", "signed.der")
    for it in {*kept, *glob("revoked.pem"), *glob("list.*"), *glob("number*")}:
        os.remove(it)


def values_of_der(it, at, depth, values):
    """The place, depth, sizes of header and content, and number of the tag of a value and of those in it."""
    length = it["length"]
    header = {0x81: 3, 0x82: 4, 0x83: 5, 0x84: 6}.get(length["first"], 2)
    size = next((length[name] for name in ("one", "two", "three", "four") if name in length), length["first"])
    values.append((at, depth, header, size, it["tag"]["constructed"]))
    at += header
    for part in it.get("parts", []):
        at = values_of_der(part, at, depth + 1, values)
    return at if it.get("parts") else at + size


def der(value, _):
    values = []
    values_of_der(value["value"], 0, 0, values)
    return {"values": values}


def der_by_tool(file):
    """Values of nine levels, which is what the pickle has."""
    printed = run("openssl", "asn1parse", "-inform", "DER", "-in", file)
    told = re.findall(r"^ *(\d+):d=(\d+) +hl=(\d+) +l= *(\d+) (prim|cons)", printed, re.M)
    values = [(*map(int, it[:4]), int(it[4] == "cons")) for it in told]
    return {"values": [it for it in values if it[1] <= 8]}


FORMATS = {
    "der": Format("der", "Der", make_der, der, der_by_tool),
}
