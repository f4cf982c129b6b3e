"""TZif: the time zones of this machine, compared with Python's zoneinfo."""

from common import COUNT, Format, copy, run, some


def make_tzif():
    copy(some(run("find", "/usr/share/zoneinfo/", "-mindepth", 2).splitlines(), COUNT))


def tzif(value, _):
    it = value["second"]
    names = "\0".join(it["names"]) + "\0"
    of = lambda at: names[at : names.index("\0", at)]
    kinds = [(kind["offset_in_seconds"], of(kind["name"]["magnitude"])) for kind in it["kinds"]]
    return {"times": it["times"], "kinds": [kinds[kind["kind"]] for kind in it["kinds_of_times"]]}


def tzif_by_zoneinfo(file):
    """By Python's zoneinfo, whose form in Python keeps what it reads."""
    from zoneinfo._zoneinfo import ZoneInfo

    with open(file, "rb") as zone:
        it = ZoneInfo.from_file(zone)
    kinds = [(int(kind.utcoff.total_seconds()), kind.tzname) for kind in it._ttinfos]
    return {"times": list(it._trans_utc), "kinds": kinds}


FORMATS = {
    "tzif": Format("tzif", "Tzif", make_tzif, tzif, tzif_by_zoneinfo),
}
