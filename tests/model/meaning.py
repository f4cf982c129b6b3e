"""What a mapping means: the rules of docs/LANGUAGE.md once more, without the program's code or its definitions.

`mapped` returns the printed value or fault that a type has at a bit of a file, and its steps. `listed` returns the records of a
type, and `searched` the places at which it has a value.
"""
from dataclasses import dataclass, field, replace
from math import gcd


class Fault(Exception):
    """A fault. The fault of an expression has no place until `Mapping.evaluated` adds it."""

    def __init__(self, kind, at=None):
        super().__init__(kind)
        self.kind, self.at = kind, at


# ---- numbers and expressions


@dataclass(frozen=True)
class Number:
    """An integer or, with a unit in bits, an offset."""

    value: int
    width: int
    signed: bool
    unit: int = 0

    @property
    def type(self):
        return self.width, self.signed


@dataclass
class Value:
    """A mapped value: `content` is a Number, the bytes of a string, a list of elements, or pairs of names and fields."""

    kind: str
    start: int
    end: int
    content: object
    name: str = ""


@dataclass(frozen=True)
class Term:
    """An expression: a form and its operands."""

    form: str
    of: tuple = ()


def converted(number, width, signed):
    number %= 1 << width
    return number - (1 << width) if signed and number >> (width - 1) else number


def brought(number, width, signed):
    if not signed:
        return number % (1 << width)
    if -(1 << (width - 1)) <= number < 1 << (width - 1):
        return number
    raise Fault("Overflow")


def common(a, b):
    return max(a[0], b[0]), a[1] and b[1]


def truth(holds):
    return Number(int(holds), 32, True)


def quotient(a, b):
    """Toward 0."""
    if b == 0:
        raise Fault("Zero")
    return abs(a) // abs(b) * (1 if (a < 0) == (b < 0) else -1)


COMPARED = {
    "==": lambda a, b: a == b,
    "!=": lambda a, b: a != b,
    "<": lambda a, b: a < b,
    "<=": lambda a, b: a <= b,
    ">": lambda a, b: a > b,
    ">=": lambda a, b: a >= b,
}
BITWISE = {"&": lambda a, b: a & b, "|": lambda a, b: a | b, "^": lambda a, b: a ^ b}
EXACT = {
    "+": lambda a, b: a + b,
    "-": lambda a, b: a - b,
    "*": lambda a, b: a * b,
    "/": quotient,
    "%": lambda a, b: a - quotient(a, b) * b,
}


def shifted(sign, a, b):
    if not 0 <= b.value < a.width:
        raise Fault("Index")
    if sign == "<<":
        return Number(brought(a.value << b.value, *a.type), *a.type)
    return Number(a.value >> b.value, *a.type)


def of_integers(sign, a, b):
    if sign in ("<<", ">>"):
        return shifted(sign, a, b)
    of = common(a.type, b.type)
    x, y = converted(a.value, *of), converted(b.value, *of)
    if sign in COMPARED:
        return truth(COMPARED[sign](x, y))
    if sign in BITWISE:
        return Number(converted(BITWISE[sign](x, y), *of), *of)
    return Number(brought(EXACT[sign](x, y), *of), *of)


def of_offsets(sign, a, b):
    of, x, y = common(a.type, b.type), a.value * a.unit, b.value * b.unit
    if sign in COMPARED:
        return truth(COMPARED[sign](x, y))
    if sign == "/":
        return Number(brought(quotient(x, y), *of), *of)
    unit = gcd(a.unit, b.unit)
    return Number(brought(EXACT[sign](x, y) // unit, *of), *of, unit)


def combined(sign, a, b):
    if isinstance(a, bytes):
        return truth(COMPARED[sign](a, b))
    if a.unit and b.unit:
        return of_offsets(sign, a, b)
    if a.unit or b.unit:
        of = common(a.type, b.type)
        return Number(brought(a.value * b.value, *of), *of, a.unit or b.unit)
    return of_integers(sign, a, b)


def prefixed(sign, a):
    if sign == "!":
        return truth(a.value == 0)
    if sign == "~":
        return Number(converted(~a.value, *a.type), *a.type)
    return Number(brought(a.value if sign == "+" else -a.value, *a.type), *a.type, a.unit)


def plain(operand):
    """What an operator sees of a value."""
    return operand.content if isinstance(operand, Value) and operand.kind in ("number", "string") else operand


@dataclass
class Counts:
    steps: int = 0


@dataclass
class Evaluation:
    """Evaluates expressions over scopes, the innermost first. A scope lists pairs of a name and a field, None if absent."""

    scopes: list
    counts: Counts

    def value(self, term):
        return plain(self.operand(term))

    def operand(self, term):
        self.counts.steps += 1
        return getattr(self, term.form)(*term.of)

    def literal(self, number):
        return number

    def bracket(self, inner):
        return self.operand(inner)

    def named(self, name):
        found = next(value for scope in self.scopes for known, value in reversed(scope) if known == name)
        if found is None:
            raise Fault("Absent")
        return found

    def prefix(self, sign, term):
        return prefixed(sign, self.value(term))

    def infix(self, sign, left, right):
        if sign in ("&&", "||"):
            if (self.value(left).value != 0) == (sign == "||"):
                return truth(sign == "||")
            return truth(self.value(right).value != 0)
        return combined(sign, self.value(left), self.value(right))

    def text_compared(self, sign, left, right):
        a, b = self.value(left), self.value(right)
        self.counts.steps += len(a if left.form == "literal" else b)
        return combined(sign, a, b)

    def choice(self, of, asked, left, right):
        chosen = self.value(left if self.value(asked).value else right)
        return Number(converted(chosen.value, *of), *of)

    def as_integer(self, of, term):
        return Number(converted(self.value(term).value, *of), *of)

    def as_offset(self, of, unit, term):
        offset = self.value(term)
        return Number(converted(quotient(offset.value * offset.unit, unit), *of), *of, unit)

    def in_unit(self, unit, term):
        number = self.value(term)
        return Number(number.value, *number.type, unit)

    def length(self, path):
        return Number(len(self.operand(path).content), 64, False)

    def size(self, path):
        value = self.operand(path)
        return Number(value.end - value.start, 64, False, 1)

    def element(self, path, index):
        elements, place = self.operand(path).content, self.value(index).value
        if not 0 <= place < len(elements):
            raise Fault("Index")
        return elements[place]

    def selected(self, path, name):
        found = dict(self.operand(path).content).get(name)
        if found is None:
            raise Fault("Absent")
        return found


# ---- types


@dataclass
class Field:
    """A field of a struct, or an alternative of a union. `order` may be empty; constraint, label and condition may be None."""

    type: object
    name: str = ""
    order: str = ""
    constraint: Term | None = None
    label: Term | None = None
    condition: Term | None = None


@dataclass
class Scalar:
    """An integer or, with a unit, an offset."""

    width: int
    signed: bool
    unit: int = 0


@dataclass
class String:
    pass


@dataclass
class Array:
    """An array. Its bound, a count or a size, may be None."""

    element: object
    bound: Term | None = None


@dataclass
class Struct:
    fields: list
    name: str = ""
    pinned: bool = False


@dataclass
class Integral:
    """A struct that is read as one integer."""

    fields: list
    width: int
    name: str = ""


@dataclass
class Union:
    alternatives: list
    name: str = ""


@dataclass
class Named:
    """A type by its name. It sees nothing of the place where it is used."""

    name: str
    type: object


def width_of(of):
    return width_of(of.type) if isinstance(of, Named) else of.width


def number_of(bits, order):
    if order == "little":
        bits = "".join(reversed([bits[place:place + 8] for place in range(0, len(bits), 8)]))
    return int(bits, 2)


@dataclass
class Opened:
    """An array that is mapped: its bound may be None. `end` is the greatest end of what precedes it, and `is_last` says that
    it has no bound and nothing follows it."""

    element: object
    order: str
    scopes: list
    start: int
    bound: Number | None = None
    end: int = 0
    is_last: bool = True

    def is_due(self, count, place, length):
        """Whether an element is mapped at a place, after so many."""
        if self.bound is None:
            return place < length
        return place - self.start < self.bound.value * self.bound.unit if self.bound.unit else count < self.bound.value


@dataclass
class Mapping:
    """A mapping over the bits of a file."""

    bits: str
    counts: Counts = field(default_factory=Counts)

    def evaluated(self, term, scopes, place):
        try:
            return Evaluation(scopes, self.counts).value(term)
        except Fault as fault:
            raise Fault(fault.kind, place) from None

    def holds(self, field, scopes, place):
        """Raises a fault if there is a constraint and it doesn't hold."""
        if field.constraint and self.evaluated(field.constraint, scopes, place).value == 0:
            raise Fault("Constraint", place)

    def value(self, of, order, scopes, start):
        if start > len(self.bits):
            raise Fault("End", start)
        if isinstance(of, Named):
            return self.value(of.type, order, [], start)
        kinds = {Scalar: self.number, Integral: self.number, String: self.string, Array: self.array, Struct: self.struct, Union: self.union}
        return kinds[type(of)](of, order, scopes, start)

    def number(self, of, order, scopes, start):
        self.counts.steps += 1
        end = start + of.width
        if end > len(self.bits):
            raise Fault("End", start)
        return self.cut(of, number_of(self.bits[start:end], order), scopes, start)

    def cut(self, of, number, scopes, start):
        """The value of a type that is read as one number."""
        if isinstance(of, Named):
            return self.cut(of.type, number, [], start)
        if isinstance(of, Scalar):
            digits = Number(converted(number, of.width, of.signed), of.width, of.signed, of.unit)
            return Value("number", start, start + of.width, digits)
        left, mine = of.width, []
        for field in of.fields:
            self.counts.steps += 2
            left -= width_of(field.type)
            digits = number >> left & (1 << width_of(field.type)) - 1
            mine.append((field.name, self.cut(field.type, digits, [mine, *scopes], start)))
            self.holds(field, [mine, *scopes], start)
        return Value("struct", start, start + of.width, mine, of.name)

    def string(self, _of, _order, _scopes, start):
        self.counts.steps += 1
        text, place = bytearray(), start
        while True:
            self.counts.steps += 1
            if place + 8 > len(self.bits):
                raise Fault("End", start)
            byte = int(self.bits[place:place + 8], 2)
            place += 8
            if byte == 0:
                return Value("string", start, place, bytes(text))
            text.append(byte)

    def array(self, of, order, scopes, start):
        opened = self.opened(of, order, scopes, start)
        elements = list(self.elements(opened, start))
        return Value("array", start, elements[-1].end if elements else start, elements)

    def opened(self, of, order, scopes, start):
        """An array before its first element."""
        self.counts.steps += 1
        bound = self.evaluated(of.bound, scopes, start) if of.bound else None
        if bound and bound.value < 0:
            raise Fault("Bounds", start)
        return Opened(of.element, order, scopes, start, bound)

    def elements(self, opened, place):
        """The elements of an array from a place on, one by one, up to its end or a fault."""
        count, bound = 0, opened.bound
        while opened.is_due(count, place, len(self.bits)):
            self.counts.steps += 1
            try:
                element = self.value(opened.element, opened.order, opened.scopes, place)
            except Fault as fault:
                if bound or fault.kind not in ("Constraint", "End"):
                    raise
                return
            if element.end == place:
                raise Fault("NoBits", place)
            yield element
            count, place = count + 1, element.end
        if bound and bound.unit and place - opened.start != bound.value * bound.unit:
            raise Fault("Bounds", opened.start)

    def struct(self, of, order, scopes, start):
        self.counts.steps += 1
        mine, _, end = self.fields(of, order, scopes, start, len(of.fields))
        return Value("struct", start, end, mine, of.name)

    def fields(self, of, order, scopes, start, count):
        """The first fields of a struct, where a field behind them begins, and their greatest end."""
        mine, end, behind = [], start, start
        for field in of.fields[:count]:
            place = self.place(field, of.pinned, [mine, *scopes], start, behind)
            if place is None:
                mine.append((field.name, None))
                continue
            value = self.value(field.type, field.order or order, [mine, *scopes], place)
            mine.append((field.name, value))
            self.holds(field, [mine, *scopes], place)
            behind, end = value.end, max(end, value.end)
        return mine, behind, end

    def place(self, field, pinned, scopes, start, behind):
        """Where a field begins, None if it is absent."""
        self.counts.steps += 1
        if field.condition and self.evaluated(field.condition, scopes, start).value == 0:
            return None
        if not field.label:
            return start if pinned else behind
        label = self.evaluated(field.label, scopes, start)
        if label.value < 0:
            raise Fault("Bounds", start)
        return start + label.value * label.unit

    def reached(self, of, order, scopes, start, path, end=0, is_last=True):
        """The array that a path of places of fields leads to, after what precedes it: up to which bit that goes, and
        whether nothing follows the array in the structs on the path."""
        if start > len(self.bits):
            raise Fault("End", start)
        if isinstance(of, Named):
            return self.reached(of.type, order, [], start, path, end, is_last)
        if not path:
            opened = self.opened(of, order, scopes, start)
            return replace(opened, end=end, is_last=is_last and opened.bound is None)
        self.counts.steps += 1
        mine, behind, mine_end = self.fields(of, order, scopes, start, path[0])
        field = of.fields[path[0]]
        place = self.place(field, of.pinned, [mine, *scopes], start, behind)
        if place is None:
            raise Fault("NoSuchPart")
        is_last = is_last and path[0] == len(of.fields) - 1
        return self.reached(field.type, field.order or order, [mine, *scopes], place, path[1:], max(end, mine_end), is_last)

    def union(self, of, order, scopes, start):
        self.counts.steps += 1
        for field in of.alternatives:
            self.counts.steps += 1
            try:
                value = self.value(field.type, field.order or order, scopes, start)
                self.holds(field, [[(field.name, value)], *scopes], start)
            except Fault as fault:
                if fault.kind != "Constraint":
                    raise
                continue
            return Value("union", start, value.end, [(field.name, value)], of.name)
        raise Fault("Constraint", start)


# ---- texts

SUFFIXES = {32: "", 8: "B", 16: "H", 64: "L", 4: "N"}
ESCAPES = {ord("\\"): r"\\", ord('"'): r"\"", ord("\n"): r"\n", ord("\t"): r"\t"}


def number_text(number):
    if number.width in SUFFIXES:
        text = f"{number.value}{'' if number.signed else 'U'}{SUFFIXES[number.width]}"
    else:
        text = f"({'' if number.signed else 'u'}int<{number.width}>) {number.value}"
    return text + f"#{ {1: 'b', 8: 'B'}.get(number.unit, number.unit) }" if number.unit else text


def text_of(value):
    if value.kind == "number":
        return number_text(value.content)
    if value.kind == "string":
        plain_or_not = (ESCAPES.get(it) or (chr(it) if 0x20 <= it <= 0x7E else f"\\x{it:02x}") for it in value.content)
        return f'"{"".join(plain_or_not)}"'
    if value.kind == "array":
        return f"[{','.join(map(text_of, value.content))}]"
    parts = (f"{name}={text_of(it)}" if name else text_of(it) for name, it in value.content if it)
    return f"{value.name or value.kind} {{{','.join(parts)}}}"


def json_of(value):
    if value.kind == "number":
        number = value.content
        return f'{{"magnitude":{number.value},"unit":{number.unit}}}' if number.unit else str(number.value)
    if value.kind == "string":
        plain_or_not = (ESCAPES.get(it) or (chr(it) if 0x20 <= it <= 0x7E else f"\\u{it:04x}") for it in value.content)
        return f'"{"".join(plain_or_not)}"'
    if value.kind == "array":
        return f"[{','.join(map(json_of, value.content))}]"
    parts = (f'"{name or place}":{json_of(it)}' for place, (name, it) in enumerate(value.content) if it)
    return f"{{{','.join(parts)}}}"


def part_of(value, steps):
    """The part to which steps lead: the name or the place of a field, or the place of an element. None if there is none."""
    for step in steps:
        if value.kind == "array":
            value = value.content[step] if step < len(value.content) else None
        else:
            found = (it for place, (name, it) in enumerate(value.content) if step in (name, place))
            value = next(found, None)
        if value is None:
            return None
    return value


def mapped(of, order, start, file):
    """Whether the type has a value there, the printed value or the fault's line, and its steps."""
    mapping = Mapping("".join(f"{byte:08b}" for byte in file))
    try:
        return True, text_of(mapping.value(of, order, [], start)), mapping.counts.steps
    except Fault as fault:
        return False, fault_line(fault), mapping.counts.steps


@dataclass
class Asked:
    """Which records are asked for: the most steps, how many are omitted and printed, whether any end is accepted. `path` leads
    through places of fields to the list; without it the list is of the type. `resume` is where the list goes on."""

    limit: int
    omit: int = 0
    most: int | None = None
    any_end: bool = False
    path: list | None = None
    resume: int | None = None


@dataclass
class Listing:
    """The records to print, the line of the list's end, where it is then, how many there were, and the steps."""

    values: list = field(default_factory=list)
    line: str = ""
    place: int = 0
    count: int = 0
    steps: int = 0

    def ended(self, line):
        self.line = line
        return self

    def next(self, mapping, elements, asked, is_printed):
        """Takes the next record, None after that. Otherwise the line of its fault, empty where there is no next one."""
        value, line = None, ""
        try:
            value = next(elements, None)
        except Fault as fault:
            line = fault_line(fault)
        self.steps = mapping.counts.steps
        if self.steps > asked.limit:
            return f"fault Limit at {self.place}#b"
        if value is None:
            return line
        if self.count >= asked.omit:
            if not is_printed(value):
                return "fault NoSuchPart"
            self.values.append(value)
        self.place, self.count = value.end, self.count + 1
        return None


def fault_line(fault):
    return f"fault {fault.kind}" + ("" if fault.at is None else f" at {fault.at}#b")


def list_of(mapping, of, order, start, asked):
    """The list that is asked for, before its first record, and where it goes on."""
    if start > len(mapping.bits):
        raise Fault("End", start)
    opened = Opened(of, order, [], start) if asked.path is None else mapping.reached(of, order, [], start, asked.path)
    return opened, opened.start if asked.resume is None else asked.resume


def listed(of, order, start, file, asked, is_printed=lambda value: True):
    """The records that are asked for, of a type from a bit on, up to one that can't be printed."""
    mapping, found, fault, place = Mapping("".join(f"{byte:08b}" for byte in file)), Listing(place=start), None, start
    try:
        opened, place = list_of(mapping, of, order, start, asked)
    except Fault as it:
        fault = it
    found.steps = mapping.counts.steps
    if found.steps > asked.limit:
        return found.ended(f"fault Limit at {start}#b")
    found.place = place
    if fault or place > len(mapping.bits):
        return found.ended(fault_line(fault or Fault("End", place)))
    elements = mapping.elements(opened, place)
    while asked.most is None or found.count < asked.omit + asked.most:
        line = found.next(mapping, elements, asked, is_printed)
        if line is not None:
            return found.ended(line or end_line(opened, found.place, len(mapping.bits), asked))
    return found


def end_line(opened, place, length, asked):
    """The line of a list that ended at a place without a fault."""
    end = max(opened.end, place)
    return f"fault Left at {end}#b" if opened.is_last and end < length and not asked.any_end else ""


@dataclass
class Search:
    """How a type is looked for: the bits from one start to the next, the steps of an attempt and of all, and how many values."""

    step: int
    attempt_limit: int
    limit: int
    count: int | None
    apart: bool


@dataclass
class Attempts:
    """The attempts to map a type over a file: the value or None, the fault's kind, and the steps, by their starts."""

    of: object
    order: str
    bits: str
    known: dict = field(default_factory=dict)

    def at(self, start):
        if start not in self.known:
            mapping = Mapping(self.bits)
            try:
                value, kind = mapping.value(self.of, self.order, [], start), ""
            except Fault as fault:
                value, kind = None, fault.kind
            self.known[start] = value, kind, mapping.counts.steps
        return self.known[start]


@dataclass
class Found:
    """What a search found: the values, the line of its end, the attempts that were given up, and the steps of all."""

    values: list = field(default_factory=list)
    line: str = ""
    given_up: list = field(default_factory=list)
    steps: int = 0

    def ended(self, line):
        self.line = line
        return self


def searched(attempts, start, search, is_printed):
    """Looks for values from a bit on, up to one that can't be printed."""
    found, end = Found(), len(attempts.bits)
    if start > end:
        return found.ended(f"fault End at {start}#b")
    while start < end and len(found.values) != search.count:
        value, _, steps = attempts.at(start)
        left = search.limit - found.steps
        if steps > min(left, search.attempt_limit):
            if search.attempt_limit > left:
                return found.ended(f"fault Limit at {start}#b")
            value, steps = None, search.attempt_limit
            found.given_up.append(start)
        if value and not is_printed(value):
            return found.ended("fault NoSuchPart")
        found.values += [value] if value else []
        found.steps += steps
        goal = value.end if value and search.apart else start
        while True:
            start += search.step
            if start >= goal:
                break
    if found.given_up:
        return found.ended(f"fault Attempts at {found.given_up[0]}#b count {len(found.given_up)}")
    return found.ended("fault NotFound" if not found.values and search.count != 0 else "")
