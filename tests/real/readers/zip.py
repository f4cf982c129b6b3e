"""ZIP: archives that zip, 7z, bsdtar and Python make, compared with Python's zipfile."""

import os
import random
import shutil
import subprocess
import zipfile

from common import COUNT, Format, run


def make_zip():
    """Stored and packed, from a pipe and to one, with comments, folders, links and long extra fields."""
    for number in range(COUNT):
        os.makedirs("from/below")
        for it in range(1 + number % 12):
            with open(f"from/{'below/' * (it % 2)}file {it}.txt", "wb") as file:
                file.write(random.randbytes(number * it * 7) if it % 3 else b"some text " * number * it)
        name, kind = f"{number:02}.zip", number % 6
        if kind == 0:
            run("zip", "-q", "-r", f"-{number % 10}", name, "from")
        elif kind == 1:
            run("7z", "a", "-bso0", "-tzip", f"-mx={number % 10}", name, "from")
        elif kind == 2:
            run("bsdtar", "--format", "zip", "-cf", name, "from")
        elif kind == 3:
            run("zip", "-q", "-r", "-X", "-z", name, "from", input=f"a comment {number}\n.\n")
        elif kind == 4:
            with open(name, "wb") as out:
                subprocess.run(["zip", "-q", "-r", "-", "from"], stdout=out, stderr=subprocess.DEVNULL, check=True)
        else:
            by_python(name, number)
        shutil.rmtree("from")


def by_python(name, number):
    """With other ways to pack, comments of entries, and sizes of 64 bits."""
    kinds = zipfile.ZIP_STORED, zipfile.ZIP_DEFLATED, zipfile.ZIP_BZIP2, zipfile.ZIP_LZMA
    with zipfile.ZipFile(name, "w", kinds[number // 6 % 4]) as it:
        for path in sorted(os.listdir("from")):
            if os.path.isfile(f"from/{path}"):
                info = zipfile.ZipInfo(f"ä {path}", (1980 + number, 2, 3, 4, 5, 6))
                info.comment, info.compress_type = f"entry {path}".encode(), kinds[number // 6 % 4]
                with it.open(info, "w", force_zip64=number % 4 == 1) as target, open(f"from/{path}", "rb") as file:
                    target.write(file.read())
        it.comment = b"of all" * (number % 3)


def entry(it):
    """An entry of the directory. Sizes of 64 bits are in its extra field."""
    sizes = {name: it[name]["magnitude"] for name in ("size", "packed", "file_at")}
    for of in it.get("extra", []):
        if of["kind"] == 1 and "data" in of:
            data = bytes(of["data"])
            for name, size in sizes.items():
                if size == 0xFFFFFFFF:
                    sizes[name], data = int.from_bytes(data[:8], "little"), data[8:]
    date, time = it["date"], it["time"]
    when = [date["year"] + 1980, date["month"], date["day"], time["hour"], time["minute"], time["second"] * 2]
    name = bytes(it["name"]).decode("utf-8" if it["flags"]["utf8"] else "cp437")
    return [name, *sizes.values(), it["checksum"], it["method"], when, bytes(it["comment"]).decode()]


def zip_archive(value, _):
    return {"entries": [entry(it) for it in value["directory"]["entries"]], "files": len(value["files"])}


def zip_by_python(file):
    with zipfile.ZipFile(file) as it:
        entries = [
            [of.orig_filename, of.file_size, of.compress_size, of.header_offset, of.CRC, of.compress_type]
            + [list(of.date_time), of.comment.decode()]
            for of in it.infolist()
        ]
    return {"entries": entries, "files": len(entries)}


FORMATS = {"zip": Format("zip", "Zip", make_zip, zip_archive, zip_by_python)}
