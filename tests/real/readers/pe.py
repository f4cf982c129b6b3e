"""PE: the stubs and plugins of nsis, libraries of MinGW, and programs of EFI, compared with pefile."""

from common import Format, by_python, packages, take, text


def make_pe():
    packages("nsis-common", "libz-mingw-w64", "systemd-boot-efi", "syslinux-efi", "ipxe")
    take("*.[de][flx][eil]")


SCRIPT = """
import pefile
def facts_of(file):
    it = pefile.PE(file)
    head, more = it.FILE_HEADER, it.OPTIONAL_HEADER
    facts = {"machine": head.Machine, "time": head.TimeDateStamp, "entry": more.AddressOfEntryPoint}
    facts |= {"image": [more.ImageBase, more.SizeOfImage, more.CheckSum, more.Subsystem], "libraries": []}
    places = lambda of: [of.Misc_VirtualSize, of.VirtualAddress, of.SizeOfRawData, of.PointerToRawData]
    facts["sections"] = [[of.Name.split(b"\\0")[0].decode(), *places(of)] for of in it.sections]
    facts["libraries"] = [of.dll.decode() for of in getattr(it, "DIRECTORY_ENTRY_IMPORT", [])]
    exports = getattr(it, "DIRECTORY_ENTRY_EXPORT", None)
    facts["exports"] = [exports.struct.NumberOfFunctions, exports.struct.NumberOfNames] if exports else []
    return facts
"""


def pe(value, _):
    it = value["pe"]
    head, more = it["header"], it["optional"]
    facts = {"machine": head["machine"], "time": head["time"], "entry": more["entry"]["magnitude"]}
    base = more["image_base_32"] if "image_base_32" in more else more["image_base"]
    facts["image"] = [base, more["image_size"]["magnitude"], more["checksum"], more["subsystem"]]
    names = ("size", "address", "size_in_file", "from")
    facts["sections"] = [[text(of["name"]), *(of[name]["magnitude"] for name in names)] for of in it["sections"]]
    imports = it.get("imports", {})
    facts["libraries"] = [imports[f"library_{at}"]["name"] for at in range(32) if f"library_{at}" in imports]
    exports = it.get("exports")
    facts["exports"] = [exports["address_count"], exports["name_count"]] if exports else []
    return facts


def pe_by_python(file):
    return by_python(SCRIPT, file)


FORMATS = {"pe": Format("pe", "Whole", make_pe, pe, pe_by_python, ("--endian", "little"))}
