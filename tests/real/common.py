"""What the readers of several formats use: to run tools, and to fetch or choose files."""

import importlib
import json
import os
import random
import re
import shutil
import subprocess
import tempfile
from contextlib import contextmanager
from dataclasses import dataclass
from functools import lru_cache
from glob import glob
from typing import Callable


HERE = os.path.dirname(os.path.abspath(__file__))
PICKLES = os.path.join(HERE, "..", "..", "pickles")
COUNT = 60  # files of a format
program = ""  # the path of poke_batch, which `compare` sets


@dataclass
class Format:
    """A pickle, the type and the options to map it, what makes the files here, and the facts of both readers."""

    pickle: str
    type: str
    make: Callable
    ours: Callable  # from the value (of mode json) and the file: the facts by name
    theirs: Callable  # from the file
    options: tuple | Callable = ()  # of all files, or from the file
    ours_alone: bool = False  # whether only the facts that the pickle has are compared


def options_of(form, file):
    """The options to map a file of a format."""
    return form.options(file) if callable(form.options) else form.options


def formats(names):
    """The formats of some names, or all. A module has the format of its name, or several with its name in front."""
    modules = [os.path.basename(it)[:-3] for it in sorted(glob(os.path.join(HERE, "readers", "*.py")))]
    found = {}
    for module in modules:
        if not names or any(name == module or name.startswith(f"{module}_") for name in names):
            found |= importlib.import_module(f"readers.{module}").FORMATS
    return {name: found[name] for name in names or found}


def files_of(name, form):
    """The files of a format. They are made in a folder beside, which gets its name when all are there."""
    if not os.path.isdir(name):
        shutil.rmtree(f"{name}.new", ignore_errors=True)
        os.makedirs(f"{name}.new")
        os.chdir(f"{name}.new")
        random.seed(1)
        form.make()
        os.chdir("..")
        os.rename(f"{name}.new", name)
    return sorted(glob(f"{name}/*"))


def lines_of(command, files):
    """The line that a command prints of each file of a list, in order."""
    with tempfile.TemporaryFile() as listed:
        listed.write(b"".join(os.fsencode(it) + b"\0" for it in files))
        listed.seek(0)
        with subprocess.Popen([*command, "--files0-from", "-"], stdin=listed, stdout=subprocess.PIPE) as running:
            yield from zip(files, running.stdout, strict=True)


def run(*command, **more):
    """What a command prints, on standard output."""
    done = subprocess.run([str(it) for it in command], capture_output=True, text=True, errors="replace", **more)
    if done.returncode:
        raise RuntimeError(f"{' '.join(map(str, command))}: {done.stderr.strip()[-300:]}")
    return done.stdout


def empty(name, size):
    with open(name, "wb") as file:
        file.truncate(size)


def plain(it):
    """The number of a value, also of an offset."""
    return it["magnitude"] if isinstance(it, dict) else it


def text(numbers):
    return bytes(numbers).split(b"\0")[0].decode(errors="replace")


def uuid(numbers):
    it = bytes(numbers).hex()
    return "-".join((it[:8], it[8:12], it[12:16], it[16:20], it[20:]))


def found(pattern, printed):
    """The first group of a pattern in what a tool printed, or an empty text."""
    it = re.search(pattern, printed, re.M)
    return it[1].strip() if it else ""


def packages(*names, only="*"):
    """Fetches packages, and unpacks each in a folder of its name below `from`: all its files, or those that fit."""
    for name in names:
        run("apt-get", "download", "-q", name)
        unpack(name, only)


def versions(*names, of):
    """Fetches each version of packages that some releases have, and unpacks it in a folder of its own below `from`."""
    with index(*(f"deb http://deb.debian.org/debian {it} main" for it in of)) as apt:
        for name in names:
            listed = run("apt-cache", *apt[2:], "madison", name)
            if not listed:
                raise RuntimeError(f"none of the releases {of} has {name}")
            for version in sorted({line.split("|")[1].strip() for line in listed.splitlines()}):
                run(*apt, "download", f"{name}={version}")
                unpack(f"{name}_{version}")


def unpack(folder, only="*"):
    """Unpacks the package that was fetched, in a folder below `from`."""
    [package] = glob("*.deb")
    folder = os.path.join("from", folder)
    os.makedirs(folder, exist_ok=True)
    with subprocess.Popen(["dpkg", "--fsys-tarfile", package], stdout=subprocess.PIPE) as unpacked:
        run("tar", "-C", folder, "-x", "--wildcards", only, stdin=unpacked.stdout)
    os.remove(package)


def take(pattern, ending=""):
    """Moves the files of unpacked packages that fit, numbered, into this folder, and removes the rest."""
    found = {os.path.realpath(it) for it in glob(f"from/**/{pattern}", recursive=True) if not os.path.islink(it)}
    below = os.path.realpath("from") + os.sep  # a folder may be a link to another
    fitting = sorted(it for it in found if os.path.isfile(it) and it.startswith(below))
    for number, it in enumerate(fitting):
        shutil.move(it, f"{number:02}-{os.path.basename(it)}{ending}")
    shutil.rmtree("from")


def sources(*names, of=""):
    """Fetches the sources of packages of a release, or of the one that runs, and unpacks them below `from`."""
    of = of or found(r"^VERSION_CODENAME=(\w+)", run("cat", "/etc/os-release"))
    with index(f"deb-src http://deb.debian.org/debian {of} main") as apt:
        for name in names:
            # (its signature or the packaging may be gone from a mirror, and isn't needed)
            subprocess.run([*apt, "source", "--download-only", name], capture_output=True, check=False)
    archives = [it for it in glob("*.orig.tar.*") if not it.endswith(".asc")]
    if len(archives) < len(names):
        raise RuntimeError(f"of the sources of {names} there are {archives}")
    for it in archives:
        run("tar", "-C", "from", "-xf", it)
    for it in glob("*"):
        if os.path.isfile(it):
            os.remove(it)


@contextmanager
def index(*lines):
    """The command apt-get with an index of its own, of lines as in sources.list, in this folder."""
    os.makedirs("lists/partial")
    os.makedirs("from", exist_ok=True)
    with open("list", "w") as file:
        file.write("\n".join(lines) + "\n")
    here = os.getcwd()
    lists = ("Etc::sourcelist", f"{here}/list"), ("Etc::sourceparts", "-"), ("State::lists", f"{here}/lists")
    apt = ["apt-get", "-q", *(f"-oDir::{name}={it}" for name, it in lists)]
    try:
        run(*apt, "update")
        yield apt
    finally:
        shutil.rmtree("lists")
        os.remove("list")


def some(fitting, count):
    """So many of the files, from all over the list."""
    fitting = sorted(it for it in fitting if os.path.isfile(it) and not os.path.islink(it))
    return fitting[:: max(1, len(fitting) // count)][:count]


def copy(fitting):
    for number, it in enumerate(fitting):
        shutil.copy(it, f"{number:02}-{os.path.basename(it)}")


def make_pictures(number, name, *options):
    """Makes a picture by ImageMagick, of another size and pattern for each number. A name is an ending or more."""
    patterns = "plasma:red-blue", "gradient:black-white", "pattern:checkerboard", "rose:", "xc:orange", "plasma:fractal"
    size = ["-size", f"{3 + number * 3}x{2 + number * 2}"]
    picture = ["-seed", number, patterns[number % len(patterns)], *options]
    run("convert", *size, *picture, name if ":" in name else f"{number:02}.{name}")


def capture_by_tool(file):
    """The times and sizes of the packets of a capture, by tshark."""
    names = "frame.time_epoch frame.cap_len frame.len"
    printed = run("tshark", "-n", "-r", file, "-T", "fields", *(word for it in names.split() for word in ("-e", it)))
    rows = [line.split("\t") for line in printed.splitlines()]
    return {"times": [it[0].ljust(20, "0") for it in rows], "sizes": [(int(it[1]), int(it[2])) for it in rows]}


@lru_cache
def facts_by_python(script, folder):
    """What a script of Debian's Python finds out of each file of a folder: its `facts_of(name)`, by the names."""
    script += """
import json, os, sys
for name in sorted(os.listdir(sys.argv[1])):
    try:
        answer = facts_of(os.path.join(sys.argv[1], name))
    except Exception as wrong:
        answer = {"not read": repr(wrong)}
    print(json.dumps([name, answer]))
"""
    return dict(json.loads(line) for line in run("/usr/bin/python3", "-c", script, folder).splitlines())


def by_python(script, file):
    """What a script of Debian's Python finds out of a file. It runs once for all files of a folder."""
    folder, name = os.path.split(file)
    facts = facts_by_python(script, folder)[name]
    if "not read" in facts:
        raise RuntimeError(facts["not read"])
    return facts


def pillow(script, file):
    """What a script finds out of a picture `it` by Pillow, in `facts`."""
    lines = "\n".join(f"    {line}" for line in script.strip().split("\n"))
    head = "from PIL import Image\ndef facts_of(file):\n    it = Image.open(file)"
    return by_python(f"{head}\n{lines}\n    return facts", file)
