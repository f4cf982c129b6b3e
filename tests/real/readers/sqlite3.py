"""SQLite: databases that Python's sqlite3 makes and reads."""

import random
import sqlite3

from common import COUNT, Format, text


def make_sqlite3():
    for number in range(COUNT):
        base = sqlite3.connect(f"{number:02}.db")
        base.execute(f"pragma page_size={(512, 1024, 4096, 8192)[number % 4]}")
        for table in range(1 + number % 5):
            base.execute(f"create table t{table}(a integer, b text, c blob)")
            rows = [
                (10**table + it, random.getrandbits(30), "x" * random.randrange(60), random.randbytes(it % 40))
                for it in range(9 * number + 5)
            ]
            base.executemany(f"insert into t{table}(rowid, a, b, c) values(?, ?, ?, ?)", rows)
        base.commit()
        for table in range(1 + number % 5):
            base.execute(f"delete from t{table} where a % 3 = 0")
            base.execute(f"update t{table} set b = b || 'yy' where a % 5 = 0")
        base.execute("drop table t0" if number % 3 == 1 and number % 5 else "select 1")
        base.commit()
        base.close()


def number_of(digits):
    """A number in groups of 7 bits, from its bytes; the ninth has 8."""
    value = 0
    for it in digits[:8]:
        value = value << 7 | it & 127
    return value << 8 | digits[8] if len(digits) == 9 else value


def cells(part, name):
    """The cells of a page's part, as an array or by their names."""
    if isinstance(part, list):
        return part
    return [it for key, it in part.items() if key.startswith(name)]


def sqlite(value, _):
    facts = {}
    for number, it in enumerate(value["pages"], 2):
        leaf = it["page"].get("leaf") or it["page"].get("holed_leaf")
        if leaf:
            rows = cells(leaf["rows"], "row_")
            facts[number] = [(number_of(list(row["row"].values())), len(row["record"])) for row in rows]
            facts[number].sort()
    objects = value["schema_cells"].get("objects") or value["schema_cells"].get("holed_objects")
    if objects is not None:
        rows = [it.get("object", it) for it in cells(objects, "object_")]
        facts["objects"] = sorted((text(it["kind_text"]), text(it["name_text"])) for it in rows)
    return facts


def sqlite_by_tool(file):
    base = sqlite3.connect(file)
    facts = {"objects": sorted(base.execute("select type, name from sqlite_schema"))}
    for (table,) in base.execute("select name from sqlite_schema where type = 'table'").fetchall():
        rows = sorted(it[0] for it in base.execute(f"select rowid from {table}"))
        pages = base.execute(
            "select pageno, ncell from dbstat where name = ? and pagetype = 'leaf' order by path", (table,)
        ).fetchall()
        for page, count in pages:
            if page != 1:
                facts[page], rows = rows[:count], rows[count:]
    base.close()
    return facts


def sqlite_numbers(value, file):
    """The numbers of rows alone, since sqlite3 doesn't tell the sizes of records; and only pages that are in use."""
    used = sqlite_by_tool(file)
    facts = sqlite(value, file)
    return {key: [it[0] for it in rows] if key != "objects" else rows for key, rows in facts.items() if key in used}


FORMATS = {
    "sqlite3": Format("sqlite3", "Database", make_sqlite3, sqlite_numbers, sqlite_by_tool),
}
