"""NTFS: volumes that mkfs.ntfs makes, compared with ntfsinfo."""

from common import COUNT, Format, empty, found, run


def make_ntfs():
    for number in range(COUNT):
        empty(f"{number:02}.img", (3 << 20) + (number << 18))
        sector, cluster = (512, 1024)[number % 2], (2048, 4096, 8192, 65536)[number % 4]
        run(
            "mkfs.ntfs",
            "-q",
            "-F",
            "-Q" if number % 2 else "-q",
            "-s",
            sector,
            "-c",
            cluster,
            "-L",
            f"disk {number}",
            f"{number:02}.img",
        )


def ntfs(value, _):
    boot = value["boot"]
    sector = boot["sector"]["magnitude"]
    return {
        "sector": sector,
        "cluster": boot["cluster_sectors"] * sector,
        "clusters": boot["sectors"] // boot["cluster_sectors"],
        "records": boot["records"],
        "records again": boot["records_again"],
    }


def ntfs_by_tool(file):
    printed = run("ntfsinfo", "-m", "-f", file)
    of = lambda name: int(found(rf"{name}:\s*(\d+)", printed))
    return {
        "sector": of("Sector Size"),
        "cluster": of("Cluster Size"),
        "clusters": of("Volume Size in Clusters"),
        "records": of("LCN of Data Attribute for FILE_MFT"),
        "records again": of("LCN of Data Attribute for File_MFTMirr"),
    }


FORMATS = {
    "ntfs": Format("ntfs", "Ntfs", make_ntfs, ntfs, ntfs_by_tool, ("--endian", "little")),
}
