"""HDF5: files that h5py makes, compared with h5dump."""

import os

from common import COUNT, Format, found, run


def make_hdf5():
    script = """
import h5py, sys
for number in range(int(sys.argv[1])):
    least = ("earliest", "v108", "v110")[number % 3]
    with h5py.File(f"{number:02}.h5", "w", libver=(least, "v110")) as file:
        for part in range(number + 1):
            file.create_group(f"group {part}").create_dataset("numbers", data=list(range(part + 1)))
"""
    run("/usr/bin/python3", "-c", script, COUNT)


def hdf5(value, _):
    form = "old" if "old" in value else "new"
    block = value[form]
    facts = {
        "version": block["version"],
        "end": block["end_of_file"]["magnitude"],
        "place": block["place_size"]["magnitude"],
    }
    return facts | ({"leaves": block["leaves"], "nodes": block["nodes"]} if form == "old" else {})


def hdf5_by_tool(file):
    printed = run("h5dump", "-B", "-H", file)
    of = lambda name: int(found(rf"^\s*{name} (\d+)", printed))
    facts = {"version": of("SUPERBLOCK_VERSION"), "end": os.path.getsize(file), "place": of("OFFSET_SIZE")}
    return facts | ({"leaves": of("BTREE_LEAF"), "nodes": of("BTREE_RANK")} if facts["version"] < 2 else {})


FORMATS = {
    "hdf5": Format("hdf5", "Hdf5", make_hdf5, hdf5, hdf5_by_tool),
}
