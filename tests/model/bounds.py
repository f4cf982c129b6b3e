"""The bounds of a type on the steps and slots of its mappings, from the table in docs/LANGUAGE.md."""
from dataclasses import dataclass

from meaning import Array, Integral, Named, Scalar, String, Struct, Term, Union


def nodes_of(term):
    """The nodes of an expression, if there is one, and the bytes of its text literals."""
    if isinstance(term, Term):
        return 1 + sum(map(nodes_of, term.of))
    return len(term) if isinstance(term, bytes) else 0


def least_width(of):
    if isinstance(of, Named):
        return least_width(of.type)
    if isinstance(of, (Scalar, Integral)):
        return of.width
    if isinstance(of, String):
        return 8
    if isinstance(of, Array):
        return 0
    if isinstance(of, Union):
        return min(least_width(it.type) for it in of.alternatives)
    widths = [least_width(it.type) for it in of.fields if not it.condition]
    is_over = of.pinned or any(it.label for it in of.fields)
    return max(widths, default=0) if is_over else sum(widths)


def bounds_of(of, bits):
    """The most steps and the most slots over so many bits."""
    if isinstance(of, Named):
        return bounds_of(of.type, bits)
    if isinstance(of, Scalar):
        return 1, 1
    if isinstance(of, String):
        return bits // 8 + 2, bits // 8 + 2
    if isinstance(of, Array):
        steps, slots = bounds_of(of.element, bits)
        tries = bits // max(1, least_width(of.element)) + 1
        return 1 + nodes_of(of.bound) + tries * (1 + steps), 1 + tries * (1 + slots)
    parts = of.alternatives if isinstance(of, Union) else of.fields
    inner = [bounds_of(it.type, bits) for it in parts]
    evaluated = sum(nodes_of(term) for it in parts for term in (it.condition, it.label, it.constraint))
    together = max if isinstance(of, Union) else sum
    return 1 + evaluated + sum(1 + steps for steps, _ in inner), 1 + together([1 + slots for _, slots in inner] or [0])


def told_bound(bound):
    return bound if bound < KNOWN else "more than 2^128-1"


def bounds_text(of, bits):
    told = map(told_bound, (*bounds_of(of, bits), *tight_bounds_of(of, bits)))
    return "".join(f"{name} {it}\n" for name, it in zip(("steps", "slots", "tight steps", "tight slots"), told))


# ---- the tighter bounds, in grains: a step has 2^32 of them, and a byte of a string takes one step

GRAIN, OCTET, KNOWN = 1 << 32, 1 << 29, 1 << 128


@dataclass
class Grains:
    """What a mapping of a type takes. The bits of a value at least, and those that are surely of no elements; the grains of a
    value, and those for each of its other bits; the grains of an attempt, and those of one that a union drops, if there are any."""

    width: int
    own: int
    fixed: int
    rate: int
    attempt: int
    missed: int


def divided(number, by):
    return number // by if number < KNOWN else number


def before(taken, missed):
    return taken + missed if missed else 0


def array_grains(of, bits):
    each, weight = grains_of(of.element, bits), nodes_of(of.bound)
    count = constant_count(of)
    repeat, entry, run = count or 0, GRAIN + each.fixed, each.rate * bits
    rate = each.rate
    if count is None:
        rate += divided(entry if entry >= KNOWN else max(0, entry - each.rate * each.own), max(1, each.width)) + 1
    first = GRAIN * (1 + weight) + repeat * entry
    tried = GRAIN + each.attempt
    fixed, attempt = (first, first + tried) if of.bound else (first + tried + run, first + tried + run)
    missed = before(first + GRAIN + rate * bits, each.missed if of.bound else 0)
    return Grains(repeat * each.width, repeat * each.own, fixed, rate, attempt, missed)


def constant_count(of):
    """The number of elements, if the bound is a number."""
    return of.bound.of[0].value if of.bound and of.bound.form == "literal" else None


def struct_grains(of, bits):
    inner = [(it, grains_of(it.type, bits)) for it in of.fields]
    there = [it for field, it in inner if not field.condition]
    is_over = of.pinned or any(field.label for field, _ in inner)
    rates, widths = [it.rate for _, it in inner], [it.width for it in there]
    fixed, attempt, missed = 0, 0, 0
    for field, it in reversed(inner):
        first, whole = GRAIN * (1 + sum(map(nodes_of, (field.condition, field.label, field.constraint)))), it.fixed + it.rate * bits
        own_miss = max(it.missed, whole if field.constraint else 0)
        missed = max(before(first, own_miss), before(first + whole, missed))
        attempt = first + max(it.attempt, it.fixed + attempt)
        fixed += first + it.fixed
    return Grains(
        max(widths, default=0) if is_over else sum(widths), 0 if is_over else sum(it.own for it in there), GRAIN + fixed,
        sum(rates) if is_over else max(rates, default=0), GRAIN + attempt, before(GRAIN, missed))


def integral_grains(of, bits):
    fixed, missed = 0, 0
    for part in reversed(of.fields):
        first, it = GRAIN * (1 + nodes_of(part.constraint)), grains_of(part.type, bits)
        own_miss = max(it.missed, it.fixed if part.constraint else 0)
        missed = max(before(first, own_miss), before(first + it.fixed, missed))
        fixed += first + it.fixed
    return Grains(of.width, of.width, GRAIN + fixed, 0, GRAIN + fixed, before(GRAIN, missed))


def union_grains(of, bits):
    inner = [(it, grains_of(it.type, bits)) for it in of.alternatives]
    fixed, attempt, missed = 0, 0, 1
    for part, it in reversed(inner):
        first = GRAIN * (1 + nodes_of(part.constraint))
        own_miss = max(it.missed, it.fixed + it.rate * bits if part.constraint else 0)
        is_last = part is of.alternatives[-1]
        fixed = first + max(it.fixed, 0 if is_last else before(fixed, own_miss))
        attempt = first + max(it.attempt, before(attempt, own_miss))
        missed = before(first, before(missed, own_miss) if missed else 0)
    least = [min(it.width for _, it in inner), min(it.own for _, it in inner)]
    return Grains(*least, GRAIN + fixed, max(it.rate for _, it in inner), GRAIN + attempt, before(GRAIN, missed))


def grains_of(of, bits):
    if isinstance(of, Named):
        return grains_of(of.type, bits)
    if isinstance(of, Scalar):
        return Grains(of.width, of.width, GRAIN, 0, GRAIN, 0)
    if isinstance(of, String):
        return Grains(8, 0, GRAIN, OCTET, 2 * GRAIN, 0)
    by_kind = {Array: array_grains, Struct: struct_grains, Integral: integral_grains, Union: union_grains}
    return by_kind[type(of)](of, bits)


def tight_bounds_of(of, bits):
    """The tighter bounds on steps and slots."""
    steps, slots = bounds_of(of, bits)
    grains = grains_of(of, bits)
    tight = min(steps, divided(grains.attempt + grains.rate * bits, GRAIN))
    return tight, min(slots, tight)
