"""ELF of 32 bits: objects and libraries of clang, compared with llvm-readobj."""

from common import Format
from objects import ELF_32, elf_by_tool, elf_order, elf_whole, make_elf


FORMATS = {"elf32": Format("elf32", "Whole", lambda: make_elf(*ELF_32), elf_whole, elf_by_tool, elf_order)}
