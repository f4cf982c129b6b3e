"""The most bytes that the stored values of a type weigh over a file of so many bits: the rules of docs/DEFINITIONS.md once more."""
from bounds import least_width
from meaning import Array, Integral, Named, Scalar, String, Struct, Union
from weights import Stored, bytes_for, fixed_bytes, plain_type, row_of

NUMBER = Stored(nodes=1, pending=1)
FAMILY = Stored(nodes=1, families=1, pending=1)


def both(one, other):
    return one.more(**vars(other))


def times(count, one):
    return Stored(**{name: count * it for name, it in vars(one).items()})


def either(one, other):
    return Stored(**{name: max(it, vars(other)[name]) for name, it in vars(one).items()})


def linked(one):
    return one.more(links=1)


def parts_of(of):
    return of.alternatives if isinstance(of, Union) else of.fields


def fixed_bits(of):
    """The bits of a value of fixed layout."""
    of = plain_type(of)
    if isinstance(of, Array):
        return plain_type(of.element).width * of.bound.of[0].value
    return of.width if isinstance(of, (Scalar, Integral)) else sum(fixed_bits(it.type) for it in of.fields)


def array_bytes(of):
    """The bytes of the arrays of fixed layout that are fields of a type, or of fields that are structs."""
    of = plain_type(of)
    if isinstance(of, Array):
        return fixed_bytes(of) or 0
    return sum(array_bytes(it.type) for it in of.fields) if isinstance(of, (Struct, Integral)) else 0


def packed_values(of, count, bits, taken):
    """What packed values of fixed layout take: up to three of them at once, and the bytes of all."""
    apart, each = takes(of, bits, False), takes(of, bits, True)
    fit = array_bytes(of) + taken if fixed_bits(of) <= bits else 0
    kept = times(min(3, count + 1), apart).more(nodes=1, families=1)
    return Stored(
        kept.nodes, kept.families, kept.links, apart.pending + 1, min(2, count) * each.rows + 1,
        fit * (count - 1) + max(each.bytes, fit))


def array_takes(of, bits, packs):
    count = bits // max(1, least_width(of.element)) + 1
    kind, taken = row_of(of.element) if packs else ("apart", 0)
    if kind == "numbers":
        return FAMILY.more(rows=1, bytes=taken * count)
    if kind == "structs":
        columns = len(plain_type(of.element).fields)
        return Stored(2 * columns + 2, 1, columns, columns + 1, 1, taken * count)
    if kind == "values":
        return packed_values(of.element, count, bits, taken)
    return both(FAMILY, times(count, linked(takes(of.element, bits, packs))))


def takes(of, bits, packs):
    """What a value takes of each list of the store at most."""
    of = plain_type(of)
    if isinstance(of, Scalar):
        return NUMBER
    if isinstance(of, String):
        return NUMBER.more(rows=1, bytes=bits // 8)
    if isinstance(of, Array):
        return array_takes(of, bits, packs)
    inner, join = Stored(), either if isinstance(of, Union) else both
    for it in parts_of(of):
        inner = join(inner, linked(takes(it.type, bits, packs)))
    return both(FAMILY, inner)


def memory_bound_of(of, bits):
    return takes(of, bits, True).weight
