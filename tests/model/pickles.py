"""Random pickles that are well typed, as their text and as types of the model."""
from dataclasses import dataclass, field
from math import gcd

from meaning import Array, Field, Integral, Named, Number, Scalar, String, Struct, Term, Union, common, width_of

# a suffix, the width and the sign that it means, and the greatest number that is written with it
LITERALS = [("", 32, True, 120), ("U", 32, False, 300), ("B", 8, True, 127), ("UB", 8, False, 255), ("H", 16, True, 200),
            ("UH", 16, False, 300), ("L", 64, True, 300), ("UL", 64, False, 300), ("N", 4, True, 7), ("UN", 4, False, 15)]
WIDTHS = [1, 2, 3, 4, 7, 8, 8, 8, 8, 12, 16, 24, 32, 33, 48, 63, 64]
UNITS = [1, 8, 8, 8, 3, 4, 12]
COMPARISONS = ["==", "!=", "<", "<=", ">", ">="]
SOME_BYTES = [0, 0, 1, 2, 3, 97, 98]


@dataclass
class Written:
    """A part of a pickle: its text, and what it is in the model. `of` is an expression's type or a type's sort, for paths."""

    text: str
    it: object
    of: object


@dataclass
class Sort:
    """What a path leads to: a `number` of a type and unit, a `string`, an `array` of a sort, a `struct` or `union` of named sorts."""

    kind: str
    of: object = None


def unit_text(unit):
    return {1: "b", 8: "B"}.get(unit, str(unit))


def integer_text(width, signed):
    return f"{'int' if signed else 'uint'}<{width}>"


def bracketed(written):
    return Written(f"({written.text})", Term("bracket", (written.it,)), written.of)


@dataclass
class Expressions:
    """Random expressions over scopes of names and sorts. Operands are in brackets, so no rule of grouping matters."""

    choose: object
    scopes: list

    def paths(self):
        found = {}
        for scope in self.scopes:
            for name, sort in reversed(scope):
                if name:
                    found.setdefault(name, Written(name, Term("named", (name,)), sort))
        inside = [
            Written(f"{path.text}.{name}", Term("selected", (path.it, name)), sort)
            for path in found.values() if path.of.kind in ("struct", "union") for name, sort in path.of.of if name
        ]
        return [*found.values(), *inside]

    def path(self, is_wanted):
        """A path to a value of the requested sort, if there is one. It may lead to an element."""
        paths = self.paths()
        arrays = [it for it in paths if it.of.kind == "array" and is_wanted(it.of.of)]
        if arrays and self.choose.random() < 0.4:
            array, index = self.choose.choice(arrays), self.integer(3)
            return Written(f"{array.text}[{index.text}]", Term("element", (array.it, index.it)), array.of.of)
        wanted = [it for it in paths if is_wanted(it.of)]
        return self.choose.choice(wanted) if wanted else None

    def number_at(self, is_offset):
        path = self.path(lambda sort: sort.kind == "number" and bool(sort.of[2]) == is_offset)
        return path and Written(path.text, path.it, path.of.of)

    def literal(self):
        suffix, width, signed, most = self.choose.choice(LITERALS)
        value = min(self.choose.choice([0, 1, 2, 3, self.choose.randrange(most + 1)]), most)
        return Written(f"{value}{suffix}", Term("literal", (Number(value, width, signed),)), (width, signed, 0))

    def integer(self, depth=0):
        """An integer. The deeper it is, the simpler it is."""
        forms = [self.literal, lambda: self.number_at(False)]
        if depth < 3:
            forms += [lambda: self.calculated(depth + 1)] * 3 + [lambda: self.compared(depth + 1)] * 2 + [
                lambda: self.prefixed(depth + 1), lambda: self.chosen(depth + 1), lambda: self.converted(depth + 1), self.length,
                lambda: self.offsets_compared(depth + 1), self.texts_compared]
        return self.choose.choice(forms)() or self.literal()

    def two(self, depth):
        return bracketed(self.integer(depth)), bracketed(self.integer(depth))

    def infix(self, sign, left, right, of):
        return Written(f"{left.text} {sign} {right.text}", Term("infix", (sign, left.it, right.it)), of)

    def calculated(self, depth):
        sign, (left, right) = self.choose.choice("+ - * / % & | ^ << >>".split()), self.two(depth)
        return self.infix(sign, left, right, left.of if sign in ("<<", ">>") else (*common(left.of, right.of), 0))

    def compared(self, depth):
        return self.infix(self.choose.choice([*COMPARISONS, "&&", "||"]), *self.two(depth), (32, True, 0))

    def prefixed(self, depth):
        sign, inner = self.choose.choice("+-~!"), bracketed(self.integer(depth))
        return Written(f"{sign}{inner.text}", Term("prefix", (sign, inner.it)), (32, True, 0) if sign == "!" else inner.of)

    def chosen(self, depth):
        asked, (left, right) = bracketed(self.integer(depth)), self.two(depth)
        of = common(left.of, right.of)
        return Written(f"{asked.text} ? {left.text} : {right.text}", Term("choice", (of, asked.it, left.it, right.it)), (*of, 0))

    def converted(self, depth):
        inner, width, signed = bracketed(self.integer(depth)), self.choose.choice([1, 3, 8, 12, 32, 64]), self.choose.random() < 0.5
        return Written(f"{inner.text} as {integer_text(width, signed)}", Term("as_integer", ((width, signed), inner.it)), (width, signed, 0))

    def length(self):
        path = self.path(lambda sort: sort.kind == "array")
        return path and Written(f"{path.text}'length", Term("length", (path.it,)), (64, False, 0))

    def offsets_compared(self, depth):
        sign = self.choose.choice([*COMPARISONS, "/"])
        left, right = bracketed(self.offset(depth)), bracketed(self.offset(depth))
        return self.infix(sign, left, right, (*common(left.of, right.of), 0) if sign == "/" else (32, True, 0))

    def texts_compared(self):
        path = self.path(lambda sort: sort.kind == "string")
        if not path:
            return None
        word, sign = self.choose.choice(["", "a", "ab", "b"]), self.choose.choice(["==", "!="])
        sides = [path, Written(f'"{word}"', Term("literal", (word.encode(),)), None)]
        left, right = self.choose.sample(sides, 2)
        return Written(f"{left.text} {sign} {right.text}", Term("text_compared", (sign, left.it, right.it)), (32, True, 0))

    def offset(self, depth=0):
        forms = [lambda: self.number_at(True), self.size, lambda: self.in_unit(max(depth, 2))]
        if depth < 3:
            forms += [lambda: self.summed(depth + 1), lambda: self.scaled(depth + 1), lambda: self.in_other_unit(depth + 1)]
        return self.choose.choice(forms)() or self.in_unit(max(depth, 2))

    def size(self):
        path = self.path(lambda sort: True)
        return path and Written(f"{path.text}'size", Term("size", (path.it,)), (64, False, 1))

    def in_unit(self, depth):
        inner, unit = bracketed(self.integer(depth)), self.choose.choice(UNITS)
        return Written(f"{inner.text}#{unit_text(unit)}", Term("in_unit", (unit, inner.it)), (*inner.of[:2], unit))

    def summed(self, depth):
        left, right = bracketed(self.offset(depth)), bracketed(self.offset(depth))
        return self.infix(self.choose.choice("+-%"), left, right, (*common(left.of, right.of), gcd(left.of[2], right.of[2])))

    def scaled(self, depth):
        offset, number = bracketed(self.offset(depth)), bracketed(self.integer(depth))
        left, right = self.choose.sample([offset, number], 2)
        return self.infix("*", left, right, (*common(left.of, right.of), offset.of[2]))

    def in_other_unit(self, depth):
        inner, of = bracketed(self.offset(depth)), (self.choose.choice([4, 8, 16, 64]), self.choose.random() < 0.5)
        unit = self.choose.choice([1, 8, 3, 16])
        text = f"{inner.text} as offset<{integer_text(*of)},{unit_text(unit)}>"
        return Written(text, Term("as_offset", (of, unit, inner.it)), (*of, unit))


@dataclass
class Pickle:
    """A random pickle that is being made."""

    choose: object
    named: list = field(default_factory=list)
    texts: list = field(default_factory=list)
    names: int = 0

    def name(self):
        self.names += 1
        return f"f{self.names}" if self.choose.random() < 0.95 else ""

    def declare(self):
        """Declares one more type, and returns its name and the type."""
        it = self.choose.choice([self.composite, self.composite, self.element])([], 0)
        return self.declared(it).text, it.it

    def declared(self, it):
        """Declares a type, and returns its name as a type."""
        name = f"T{len(self.named)}"
        if isinstance(it.it, (Struct, Union, Integral)):
            it.it.name = name
        self.texts.append(f"type {name} = {it.text};\n")
        self.named.append(Written(name, Named(name, it.it), it.of))
        return self.named[-1]

    def around(self, scopes, depth):
        """A type with a list at some depth of structs, inline or by their names, and the places of the fields that lead to it."""
        if depth == 0:
            return self.list(scopes), []
        path = []

        def inner(scopes):
            is_named = self.choose.random() < 0.3
            it, found = self.around([] if is_named else scopes, depth - 1)
            path.extend(found)
            return self.declared(it) if is_named else it

        it, at = self.struct(scopes, 1, inner)
        return it, [at, *path]

    def list(self, scopes):
        base = self.base(scopes, 1)
        sort, bound = Sort("array", base.of), self.bound(scopes)
        if self.choose.random() < 0.5:
            return Written(f"{base.text}[]", Array(base.it), sort)
        return Written(f"{base.text}[{bound.text}]", Array(base.it, bound.it), sort)

    def integer(self):
        width, signed = self.choose.choice(WIDTHS), self.choose.random() < 0.5
        return Written(integer_text(width, signed), Scalar(width, signed), Sort("number", (width, signed, 0)))

    def offset(self):
        of, unit = self.integer(), self.choose.choice(UNITS)
        width, signed, _ = of.of.of
        return Written(f"offset<{of.text},{unit_text(unit)}>", Scalar(width, signed, unit), Sort("number", (width, signed, unit)))

    def scalar(self):
        return self.choose.choice([self.integer, self.integer, self.integer, self.offset])()

    def base(self, scopes, depth):
        chance = self.choose.random()
        if self.named and chance < 0.3:
            return self.choose.choice(self.named)
        if depth > 2 or chance < 0.7:
            return self.scalar() if chance < 0.6 else Written("string", String(), Sort("string"))
        return self.composite(scopes, depth + 1)

    def composite(self, scopes, depth):
        return self.choose.choice([self.struct, self.struct, self.union, self.integral])(scopes, depth)

    def element(self, scopes, depth):
        """A type, or an array of it."""
        base, chance = self.base(scopes, depth + 1), self.choose.random()
        if chance < 0.55:
            return base
        sort = Sort("array", base.of)
        if chance < 0.7:
            return Written(f"{base.text}[]", Array(base.it), sort)
        bound = self.bound(scopes)
        return Written(f"{base.text}[{bound.text}]", Array(base.it, bound.it), sort)

    def bound(self, scopes):
        """A count or a size. A small one is more frequent, so that arrays have elements."""
        expressions, count = Expressions(self.choose, scopes), self.choose.randrange(5)
        small = Term("literal", (Number(count, 32, True),))
        return self.choose.choice([
            lambda: Written(str(count), small, None),
            lambda: Written(f"{count}#B", Term("in_unit", (8, small)), None),
            lambda: expressions.integer(2),
            lambda: expressions.offset(2),
        ])()

    def order(self, of):
        of = of.type if isinstance(of, Named) else of
        is_number = isinstance(of, (Scalar, Integral)) or isinstance(of, Named) and self.order(of)
        return self.choose.choice(["", "", "big", "little"]) if is_number else ""

    def expression(self, scopes, chance):
        return Expressions(self.choose, scopes).integer(1) if self.choose.random() < chance else None

    def struct(self, scopes, depth, inner=None):
        """A struct. The type of one of its fields may be what `inner` makes for its scopes: then also that field's place."""
        pinned, mine, fields, texts = self.choose.random() < 0.15, [], [], []
        count = self.choose.choice([0, 1, 2, 2, 3, 4])
        at = self.choose.choice([count, count, self.choose.randrange(count + 1)]) if inner else None
        for place in range(count + bool(inner)):
            of, name = inner([mine, *scopes]) if place == at else self.element([mine, *scopes], depth), self.name()
            constraint = self.expression([[*mine, (name, of.of)], *scopes], 0.3)
            labelled = not pinned and self.choose.random() < 0.12
            label = Expressions(self.choose, [mine, *scopes]).offset(1) if labelled else None
            condition = self.expression([mine, *scopes], 0.12)
            texts.append(self.written(of, name, fields, constraint, label, condition))
            mine.append((name, of.of))
        text = f"{'pinned ' if pinned else ''}struct {{ {' '.join(texts)} }}"
        written = Written(text, Struct(fields, pinned=pinned), Sort("struct", mine))
        return (written, at) if inner else written

    def written(self, of, name, fields, constraint=None, label=None, condition=None, prefixed=True):
        """The text of a field, which is added to the fields."""
        order = self.order(of.it) if prefixed else ""
        fields.append(Field(of.it, name, order, *(it and it.it for it in (constraint, label, condition))))
        words = [order, of.text, name]
        words += [f"{sign} {it.text}" for sign, it in ((":", constraint), ("@", label), ("if", condition)) if it]
        return " ".join(it for it in words if it) + ";"

    def union(self, scopes, depth):
        fields, texts, sorts = [], [], []
        for _ in range(self.choose.choice([1, 2, 2, 3])):
            of, name = self.element(scopes, depth), self.name() or f"n{len(fields)}"
            constraint = self.expression([[(name, of.of)], *scopes], 0.6)
            texts.append(self.written(of, name, fields, constraint))
            sorts.append((name, of.of))
        return Written(f"union {{ {' '.join(texts)} }}", Union(fields), Sort("union", sorts))

    def integral(self, scopes, depth):
        mine, fields, texts, width = [], [], [], 0
        for _ in range(self.choose.choice([1, 2, 3])):
            is_inner = depth < 3 and self.choose.random() < 0.2
            of, name = self.integral([mine, *scopes], depth + 1) if is_inner else self.scalar(), self.name()
            if width + width_of(of.it) <= 64:
                constraint = self.expression([[*mine, (name, of.of)], *scopes], 0.3)
                texts.append(self.written(of, name, fields, constraint, prefixed=False))
                mine.append((name, of.of))
                width += width_of(of.it)
        text = f"struct {integer_text(width, self.choose.random() < 0.3)} {{ {' '.join(texts)} }}"
        return Written(text, Integral(fields, width), Sort("struct", mine))


def random_pickle(choose):
    """The text of a pickle, and the name and the type of its last declaration."""
    pickle = Pickle(choose)
    for _ in range(choose.randint(1, 4)):
        name, of = pickle.declare()
    return "".join(pickle.texts), name, of


@dataclass
class Mark:
    """A constant number of whole bytes at the start of a type. `order` is empty if it is that of the run."""

    number: int
    width: int
    order: str

    def content(self, order):
        return self.number.to_bytes(self.width // 8, self.order or order)


def marked(pickle, of):
    """A struct that begins with a constant number, maybe after other bytes or at a label, and goes on with a type; and its mark."""
    choose = pickle.choose
    width = choose.choice([8, 8, 16, 24, 32, 32, 40, 64])
    mark = Mark(choose.randrange(1 << width), width, choose.choice(["", "", "big", "little"]))
    name, sides = Term("named", ("mark",)), [Term("literal", (Number(mark.number, 64, False),))]
    sides.insert(choose.randrange(2), name)
    texts = [it.of[0] if it is name else f"{mark.number}UL" for it in sides]
    constraint, text = Term("infix", ("==", *sides)), " == ".join(texts)
    if choose.random() < 0.3:
        constraint, text = Term("bracket", (constraint,)), f"({text})"
    fields, before = [], choose.choice([0, 0, 0, 1, 2])
    fields += [Field(Scalar(8, False)) for _ in range(before)]
    at = choose.choice([None, None, None, choose.randrange(before, 5)])
    label = None if at is None else Term("in_unit", (8, Term("literal", (Number(at, 32, True),))))
    fields += [Field(Scalar(width, False), "mark", mark.order, constraint, label), Field(of.it, "rest")]
    words = f"{mark.order} uint<{width}> mark : {text}{'' if at is None else f' @ {at}#B'}"
    text = f"struct {{ {'uint<8>; ' * before}{words.strip()}; {of.text} rest; }}"
    return pickle.declared(Written(text, Struct(fields), None)), mark


def random_search(choose):
    """The text of a pickle, its last type by name and as a type, and the marks with which values of it begin; many have none."""
    pickle, marks = Pickle(choose), []
    for _ in range(choose.randint(1, 4)):
        pickle.declare()
    last = pickle.named[-1]
    for _ in range(choose.choice([0, 0, 1, 1, 1, 2])):
        of, mark = marked(pickle, last)
        marks.append((of, mark))
    if len(marks) == 2:
        fields = [Field(of.it, name) for (of, _), name in zip(marks, "ab")]
        texts = " ".join(f"{of.text} {name};" for (of, _), name in zip(marks, "ab"))
        last = pickle.declared(Written(f"union {{ {texts} }}", Union(fields), None))
    elif marks:
        last = marks[0][0]
    return "".join(pickle.texts), last.text, last.it.type, [mark for _, mark in marks]


def random_list(choose):
    """The text of a pickle, and its last type: the name, the type, and the places of the fields that lead to a list in it."""
    pickle = Pickle(choose)
    for _ in range(choose.randint(0, 2)):
        pickle.declare()
    it, path = pickle.around([], choose.choice([0, 1, 1, 2, 2, 3]))
    name = pickle.declared(it).text
    return "".join(pickle.texts), name, it.it, path


def random_path(choose, of):
    """A path to a part that some value of a type has: its text, and its steps. `.` is the value itself."""
    text, steps = "", []
    while steps == [] or choose.random() < 0.4:
        of = of.type if isinstance(of, Named) else of
        fields = of.alternatives if isinstance(of, Union) else of.fields if isinstance(of, (Struct, Integral)) else []
        if isinstance(of, Array):
            steps.append(choose.randrange(3))
            text, of = f"{text}[{steps[-1]}]", of.element
        elif fields:
            place = choose.randrange(len(fields))
            steps.append(fields[place].name or place)
            text, of = f"{text}.{steps[-1]}", fields[place].type
        elif not isinstance(of, Named):
            break
    return text or ".", steps


def random_file(choose):
    return bytes(choose.choice([*SOME_BYTES, choose.randrange(256)]) for _ in range(choose.choice([0, 1, 3, 8, 20, 60])))
