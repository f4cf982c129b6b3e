"""ELF of 64 bits: objects and libraries of clang and programs of this machine, compared with llvm-readobj."""

from common import COUNT, Format
from objects import ELF_64, elf_by_tool, elf_order, elf_whole, make_elf, programs


def make_elf64():
    make_elf(*ELF_64)
    programs(COUNT // 2)


FORMATS = {"elf64": Format("elf64", "Whole", make_elf64, elf_whole, elf_by_tool, elf_order)}
