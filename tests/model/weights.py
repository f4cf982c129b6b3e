"""What the stored values of a mapping weigh: the rules of docs/OPERATORS.md once more, without the program's code.

`peak_of` returns the most bytes that a mapping stores at once, attempts included.
"""
from dataclasses import dataclass, field, replace

from meaning import Array, Fault, Integral, Mapping, Named, Scalar, Struct, Value, number_of, width_of

MOST_PACKED = 512


@dataclass
class Stored:
    """The entries of the store's lists: values, families, links, parts of open values, ends of rows, and bytes."""

    nodes: int = 0
    families: int = 0
    links: int = 0
    pending: int = 0
    rows: int = 0
    bytes: int = 0

    @property
    def weight(self):
        return 24 * self.nodes + 16 * self.families + 8 * (self.links + self.pending + self.rows) + self.bytes

    def more(self, **counts):
        return replace(self, **{name: getattr(self, name) + count for name, count in counts.items()})


# ---- how the elements of an array are kept


def bytes_for(width):
    return (width + 7) // 8


def plain_type(of):
    return plain_type(of.type) if isinstance(of, Named) else of


def is_fixed(fields):
    """Whether each field is there, right behind the one before it."""
    return not any(it.label or it.condition for it in fields)


def fixed_bytes(of):
    """The bytes of a type's numbers where all its values are alike but for these; None otherwise."""
    of = plain_type(of)
    if isinstance(of, Scalar):
        return bytes_for(of.width)
    if isinstance(of, Array):
        element, count = plain_type(of.element), of.bound and of.bound.form == "literal" and of.bound.of[0]
        if not isinstance(element, Scalar) or element.width > 32 or not count or count.unit:
            return None
        taken = bytes_for(element.width) * count.value
        return taken if 1 <= taken <= MOST_PACKED else None
    if isinstance(of, Integral) or isinstance(of, Struct) and not of.pinned and is_fixed(of.fields):
        taken = [fixed_bytes(it.type) for it in of.fields]
        return sum(taken) if None not in taken and 1 <= sum(taken) <= MOST_PACKED else None
    return None


def row_of(of):
    """How elements are kept: apart, as packed numbers, as packed structs of numbers, or as other packed values."""
    of = plain_type(of)
    if isinstance(of, Scalar):
        return "numbers", bytes_for(of.width)
    taken = fixed_bytes(of) if isinstance(of, (Struct, Integral)) else None
    if taken is None:
        return "apart", 0
    are_numbers = isinstance(of, Struct) and all(isinstance(plain_type(it.type), Scalar) for it in of.fields)
    return "structs" if are_numbers else "values", taken


def apart_nodes(value):
    """The nodes, families and links of a value of which nothing is packed."""
    if value.kind == "number":
        return 1, 0, 0
    parts = value.content if value.kind == "array" else [it for _, it in value.content]
    inner = [apart_nodes(it) for it in parts]
    return 1 + sum(it[0] for it in inner), 1 + sum(it[1] for it in inner), len(parts) + sum(it[2] for it in inner)


# ---- a mapping that counts


@dataclass
class Weighing(Mapping):
    """A mapping that counts what is stored, and the most of it at once."""

    now: Stored = field(default_factory=Stored)
    frames: list = field(default_factory=list)
    peak: int = 0
    kept: tuple = ("apart", 0)

    def stores(self, now):
        self.now = now
        self.peak = max(self.peak, now.weight)

    def framed(self, body):
        """What a body gives that closes the frame which is opened for it. The frame is given up where it has a fault."""
        self.frames.append(self.now)
        try:
            return body()
        except Fault:
            self.now = self.frames.pop()
            raise

    def close(self):
        own = self.frames.pop()
        links = self.now.pending - own.pending
        self.stores(replace(self.now.more(nodes=1, families=1, links=links), pending=own.pending + 1))

    def extend_row(self, taken):
        """The innermost frame has a text or a row alone, which has so many bytes more."""
        self.stores(replace(self.frames[-1].more(nodes=1, pending=1, rows=1), bytes=self.now.bytes + taken))

    def taken_kept(self):
        """How the next value is kept, which isn't said of the values in it."""
        kept, self.kept = self.kept, ("apart", 0)
        return kept

    def cut(self, of, number, scopes, start):
        if isinstance(of, Named):
            return super().cut(of, number, scopes, start)
        kind, taken = self.taken_kept()
        if isinstance(of, Scalar):
            value = super().cut(of, number, scopes, start)
            if kind == "numbers":
                self.extend_row(taken)
            else:
                self.stores(self.now.more(nodes=1, pending=1))
            return value
        return self.framed(lambda: self.closed(super(Weighing, self).cut(of, number, scopes, start)))

    def closed(self, value):
        self.close()
        return value

    def string(self, of, order, scopes, start):
        self.counts.steps += 1
        return self.framed(lambda: self.text(start))

    def text(self, start):
        text, place = bytearray(), start
        while True:
            self.counts.steps += 1
            if place + 8 > len(self.bits):
                raise Fault("End", start)
            byte = number_of(self.bits[place:place + 8], "big")
            place += 8
            if byte == 0:
                self.extend_row(0)
                self.frames.pop()
                return Value("string", start, place, bytes(text))
            self.extend_row(1)
            text.append(byte)

    def array(self, of, order, scopes, start):
        opened = self.opened(of, order, scopes, start)

        def body():
            elements = list(self.elements(opened, start))
            if row_of(of.element)[0] == "apart" or self.now.nodes == self.frames[-1].nodes:
                self.close()
            else:
                self.frames.pop()
            return Value("array", start, elements[-1].end if elements else start, elements)

        return self.framed(body)

    def elements(self, opened, place):
        kind, taken = row_of(opened.element)
        value, before = self.value, None

        def kept_value(of, order, scopes, start):
            nonlocal before
            self.value, self.kept, before = value, (kind, taken), self.now
            try:
                mapped = value(of, order, scopes, start)
                if kind == "values":
                    self.pack(mapped, before, taken)
                return mapped
            finally:
                self.value, self.kept = kept_value, ("apart", 0)

        self.value = kept_value
        try:
            yield from super().elements(opened, place)
        finally:
            self.value = value

    def pack(self, value, before, taken):
        """A value that was mapped becomes one more of a row of values; the first makes the row, behind its template."""
        if self.now.pending == self.frames[-1].pending + 1:
            nodes, families, links = apart_nodes(value)
            self.stores(self.now.more(nodes=nodes + 1, families=families, links=links, rows=1, bytes=taken))
        else:
            self.stores(before.more(bytes=taken))

    def struct(self, of, order, scopes, start):
        self.counts.steps += 1
        kind, taken = self.taken_kept()

        def body():
            mine, _, end = self.fields(of, order, scopes, start, len(of.fields))
            if kind == "structs":
                self.pack_struct(taken)
            else:
                self.close()
            return Value("struct", start, end, mine, of.name)

        return self.framed(body)

    def pack_struct(self, taken):
        """The numbers of the innermost frame become one more struct of a row; the first makes the row and its template."""
        own = self.frames.pop()
        around = self.frames[-1]
        if own.nodes == around.nodes:
            count = self.now.pending - own.pending
            self.stores(around.more(nodes=count + 2, families=1, links=count, pending=1, rows=1, bytes=taken))
        else:
            self.stores(own.more(bytes=taken))

    def place(self, field, pinned, scopes, start, behind):
        place = super().place(field, pinned, scopes, start, behind)
        if place is None:
            self.stores(self.now.more(pending=1))
        return place

    def union(self, of, order, scopes, start):
        self.counts.steps += 1
        self.taken_kept()
        return self.framed(lambda: self.alternative(of, order, scopes, start))

    def alternative(self, of, order, scopes, start):
        for it in of.alternatives:
            self.counts.steps += 1
            try:
                value = self.value(it.type, it.order or order, scopes, start)
                self.holds(it, [[(it.name, value)], *scopes], start)
            except Fault as fault:
                if fault.kind != "Constraint":
                    raise
                self.now = self.frames[-1]
                continue
            self.close()
            return Value("union", start, value.end, [(it.name, value)], of.name)
        raise Fault("Constraint", start)


def peak_of(of, order, start, file):
    """The most bytes that a mapping of the type from that bit on stores at once."""
    mapping = Weighing("".join(f"{byte:08b}" for byte in file))
    try:
        mapping.value(of, order, [], start)
    except Fault:
        pass
    return mapping.peak
