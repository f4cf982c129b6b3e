"""ELF, the header and segments alone: objects of clang and programs of this machine, compared with llvm-readobj."""

from common import COUNT, Format
from objects import elf_by_tool, elf_head, make_elf, programs


def make_the_elf():
    make_elf("x86_64", "aarch64")
    programs(COUNT // 2)


def elf_head_by_tool(file):
    told = elf_by_tool(file)
    return {name: told[name] for name in ("entry", "places", "counts", "segments")}


OPTIONS = "--endian", "little"
FORMATS = {"elf": Format("elf", "Elf", make_the_elf, lambda value, _: elf_head(value), elf_head_by_tool, OPTIONS)}
