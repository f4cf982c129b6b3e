"""tar: archives of GNU tar, bsdtar and git, compared with Python's tarfile."""

import os
import random
import shutil
import tarfile

from common import COUNT, Format, run


def make_tar():
    """Of each form, with long names, links, folders, pipes, holes and sizes of other lengths."""
    for number in range(COUNT):
        name, form = f"{number:02}.tar", ("v7", "oldgnu", "gnu", "ustar", "posix")[number % 5]
        step = 60 if form in ("oldgnu", "gnu", "posix") and number % 6 != 5 else 40  # a short form has no long names
        os.makedirs("from/below")
        for it in range(number % 17):
            with open(f"from/{'below/' * (it % 2)}{'n' * (it % 3 * step)}{it}", "wb") as file:
                file.write(random.randbytes(number * it * 3))
        os.symlink("0", "from/link")
        with open("from/first", "wb") as file:
            file.write(b"first" * number)
        os.link("from/first", "from/second")
        if form != "v7":
            os.mkfifo("from/pipe", 0o640)
        if number % 10 == 7:
            with open("from/holed", "wb") as file:
                file.truncate(1 << 20)
                file.write(b"start")
        if number % 6 == 5:
            run("bsdtar", "--format", ("ustar", "pax", "gnutar")[number // 6 % 3], "-cf", name, "from")
        else:
            more = ["-S"] if form in ("oldgnu", "gnu", "posix") else []
            more += ["--owner=a:70", f"--group=b:{number}", f"--mtime=@{1700000000 + number}", "-b", 1 + number % 20]
            run("tar", f"--format={form}", *more, "--warning=no-timestamp", "-cf", name, "from")
        shutil.rmtree("from")


def number(it):
    """A number of a header: its octal digits, or binary if the first bit is set."""
    if isinstance(it, dict) and "binary" in it:
        of = it["binary"]
        return of & (1 << 63) - 1 if isinstance(of, int) else (of["high"] << 64 | of["low"]) & (1 << 95) - 1
    if isinstance(it, dict):
        it = it["full"] if "full" in it else it["digits"].encode()
    digits = bytes(it)
    return int.from_bytes(digits[1:], "big") if digits[:1] == b"\x80" else int(digits.rstrip(b"\0 ") or b"0", 8)


def tar(value, _):
    """All entries but those that are about the next one, whose name, size and time may be elsewhere then."""
    facts, special = {"entries": []}, False
    for it in value["entries"]:
        head = it["header"]
        kind = chr(head["kind"])
        if kind in "xgLK":
            special = True
            continue
        numbers = [number(head[name]) for name in ("mode", "owner_number", "group_number", "time")]
        shown = [{"\0": "0"}.get(kind, kind), numbers[0] & 0o7777, *numbers[1:]]
        if not special and kind != "S":
            prefix = head.get("prefix", {}).get("text", "")
            shown += [(f"{prefix}/" if prefix else "") + head["name"]["text"].rstrip("/"), number(head["size"])]
        facts["entries"].append(shown)
        special = False
    return facts


def tar_by_python(file):
    facts = {"entries": []}
    with tarfile.open(file) as it:
        for of in it.getmembers():
            kind = {b"\0": "0"}.get(of.type, of.type.decode())
            shown = [kind, of.mode, of.uid, of.gid, int(of.mtime)]
            if not of.pax_headers and of.offset_data - of.offset == 512 and kind != "S":
                shown += [of.name, of.size]
            facts["entries"].append(shown)
    return facts


FORMATS = {"tar": Format("tar", "Archive", make_tar, tar, tar_by_python)}
