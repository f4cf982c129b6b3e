"""TrueType: fonts of Debian's packages, compared with fontTools."""

from common import Format, by_python, packages, take


def make_truetype():
    packages("fonts-dejavu-core", "fonts-dejavu-extra", "fonts-liberation2", "fonts-freefont-ttf", "fonts-lato")
    take("*.ttf")


HEAD = {"unitsPerEm": "units_per_em", "xMin": "left", "yMin": "bottom", "xMax": "right", "yMax": "top"}
HEAD |= {"created": "created", "modified": "changed", "flags": "flags", "macStyle": "style"}
HEAD |= {"checkSumAdjustment": "checksum_adjustment", "lowestRecPPEM": "smallest_size"}
HEAD |= {"indexToLocFormat": "place_form"}
HORIZONTAL = {"ascent": "ascender", "descent": "descender", "lineGap": "line_gap", "advanceWidthMax": "greatest_width"}
HORIZONTAL |= {"numberOfHMetrics": "metric_count", "minLeftSideBearing": "least_left", "xMaxExtent": "greatest_extent"}


def truetype(value, _):
    # (fontTools takes an early time for one of Unix)
    early = lambda it, name: it + 0x7C259DC0 if name in ("created", "modified") and it < 0x7C259DC0 else it
    facts = {"tables": [], "head": [early(value["head"][ours], name) for name, ours in HEAD.items()]}
    facts["horizontal"] = [value["horizontal"][it] for it in HORIZONTAL.values()]
    facts["glyphs"] = value["profile"]["glyph_count"]
    for it in value["directory"]:
        place = [it["from"]["magnitude"], it["size"]["magnitude"]]
        facts["tables"].append([bytes(it["name"]).decode(), it["checksum"], *place])
    facts["tables"].sort()
    names = value["names"]
    facts["names"] = []
    for number, it in enumerate(names["records"], 1):
        data = names.get(f"text_{number}")
        if data is not None:
            facts["names"].append([it["platform"], it["name"], bytes(data).hex()])
    facts["names"] = facts["names"][:8]
    return facts


SCRIPT = f"""
from fontTools.ttLib import TTFont
def facts_of(file):
    font = TTFont(file, lazy=True)
    tables = [[str(tag), it.checkSum, it.offset, it.length] for tag, it in font.reader.tables.items()]
    facts = {{"tables": sorted(tables)}}
    facts["head"] = [getattr(font["head"], it) for it in {list(HEAD)}]
    facts["horizontal"] = [getattr(font["hhea"], it) for it in {list(HORIZONTAL)}]
    facts["glyphs"] = font["maxp"].numGlyphs
    facts["names"] = [[it.platformID, it.nameID, it.string.hex()] for it in font["name"].names][:8]
    return facts
"""


FORMATS = {"truetype": Format("truetype", "Font", make_truetype, truetype, lambda file: by_python(SCRIPT, file))}
