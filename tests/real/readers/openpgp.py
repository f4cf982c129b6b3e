"""OpenPGP: Debian's keyrings, and keys and signatures of gpg, compared with its list of packets."""

import os
import re
import shutil
import subprocess

from common import COUNT, Format, packages, run, take


KINDS = "ed25519 rsa2048 nistp256 dsa2048 brainpoolP256r1 rsa1024 nistp384 secp256k1 nistp521 brainpoolP512r1".split()


def make_openpgp():
    packages("debian-archive-keyring")
    take("*.gpg")
    os.makedirs("home", mode=0o700)
    gpg = ["gpg", "--homedir", "home", "--batch", "--quiet", "--passphrase", "", "--pinentry-mode", "loopback"]
    for number in range(COUNT // 3):
        kind = KINDS[number % len(KINDS)]
        name = f"{number:02}-{kind}.gpg"
        run(*gpg, "--quick-gen-key", f"key {number}", kind, "sign", f"{number + 1}y")
        run(*gpg, "--export", "-o", f"key-{name}", f"key {number}")
        of = ["-u", f"key {number}", "-o"]
        run(*gpg, "--compress-algo", "none", *of, f"signed-{name}", "--sign", f"key-{name}")
        run(*gpg, *of, f"detached-{name}", "--detach-sign", f"key-{name}")
    subprocess.run(["gpgconf", "--homedir", "home", "--kill", "gpg-agent"])
    shutil.rmtree("home")


def openpgp(value, _):
    packets, at = [], 0
    for it in value["packets"]:
        head = it["head"]
        size = lambda name, bytes_: bytes_ if name in head else 0
        length = 1 + sum(
            size(*of) for of in (("old_length_1", 1), ("old_length_2", 2), ("first", 1), ("second", 1), ("length_4", 4))
        )
        rest = head["tag"]["rest"]
        if head["tag"]["new"]:
            body = head.get("length_4", head["first"])
            body = (head["first"] - 192) * 256 + head["second"] + 192 if "second" in head else body
        else:
            body = head.get("old_length_1", head.get("old_length_2", head.get("length_4")))
        packets.append((at, rest if head["tag"]["new"] else rest >> 2, length, body))
        at += length + body
    return {"packets": packets}


def openpgp_by_tool(file):
    printed = run("gpg", "--list-packets", file)
    told = re.findall(r"^# off=(\d+) ctb=\w+ tag=(\d+) hlen=(\d+) plen=(\d+)", printed, re.M)
    return {"packets": [tuple(map(int, it)) for it in told]}


FORMATS = {
    "openpgp": Format("openpgp", "Packets", make_openpgp, openpgp, openpgp_by_tool, ("--whole",)),
}
