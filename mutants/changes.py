"""Lists the changes of a function's body: one operator, number, argument or branch at a time."""

from __future__ import annotations

import re
from dataclasses import dataclass
from typing import Iterator, List, Sequence, Set, Tuple

from body import HEADS, Reading
from declared import Declared, may_stand_for
from literals import byte_literal, byte_of, number_of, with_number
from source import KEYWORDS, Body, Source, is_operand_end

KINDS = ("operator", "number", "argument", "branch")

BINARY = {
    "+": ["-"],
    "-": ["+"],
    "*": ["/"],
    "/": ["*"],
    "%": ["/"],
    "<": ["<=", ">"],
    "<=": ["<"],
    ">": [">=", "<"],
    ">=": [">"],
    "==": ["!="],
    "!=": ["=="],
    "&&": ["||"],
    "||": ["&&"],
    "&": ["|"],
    "|": ["&"],
    "+=": ["-="],
    "-=": ["+="],
}
ASSIGNMENTS = ("=", "+=", "-=", "*=", "/=", "%=", "&=", "|=", "^=", "<<=", ">>=")
# The methods of std that take two numbers, one of them before the dot: those that give the same in either order, and all.
EITHER_ORDER = ("min", "max", "abs_diff")
OF_TWO_NUMBERS = EITHER_ORDER + ("div_ceil",)


@dataclass(frozen=True)
class Change:
    """The text from one offset to another becomes a new one."""

    kind: str
    start: int
    end: int
    new: str


def operators(reading: Reading) -> Iterator[Change]:
    source, body = reading.source, reading.body
    for place in range(body.first, body.last):
        token = source.tokens[place]
        if token.kind != "mark" or place in reading.patterns:
            continue
        if token.text == "!" or (token.text == "-" and not is_operand_end(source.tokens, place - 1)):
            yield Change("operator", token.start, token.end, "")
        elif is_operand_end(source.tokens, place - 1):
            for new in BINARY.get(token.text, []):
                yield Change("operator", token.start, token.end, new)


def numbers(reading: Reading) -> Iterator[Change]:
    source, body = reading.source, reading.body
    for place in range(body.first, body.last):
        token = source.tokens[place]
        if token.text in ("true", "false"):
            yield Change("number", token.start, token.end, "false" if token.text == "true" else "true")
        elif token.kind == "number" and not source.is_at(place - 1, "."):
            n = number_of(token.text)
            for other in [n + 1] + [n - 1] * (n > 0):
                yield Change("number", token.start, token.end, with_number(token.text, other))
        elif token.kind == "byte":
            n = byte_of(token.text)
            for other in (n + 1, n - 1):
                yield Change("number", token.start, token.end, byte_literal(other))


def swapped(source: Source, one: Tuple[int, int], other: Tuple[int, int]) -> Change:
    """Two parts of the text, the first before the other, in each other's place."""
    first, second = source.span(*one), source.span(*other)
    gap = source.text[first[1] : second[0]]
    new = source.text[second[0] : second[1]] + gap + source.text[first[0] : first[1]]
    return Change("argument", first[0], second[1], new)


def is_name(source: Source, first: int, last: int) -> bool:
    """Whether the tokens are a name, or a field of one, and no more."""
    words, dots = source.tokens[first:last:2], source.tokens[first + 1 : last : 2]
    return (
        len(words) == len(dots) + 1
        and all(word.kind == "word" and word.text not in KEYWORDS | {"true", "false"} for word in words)
        and all(dot.text == "." for dot in dots)
    )


def is_literal(source: Source, first: int, last: int) -> bool:
    return all(token.kind in ("number", "byte", "mark") for token in source.tokens[first:last])


def exchanged(source: Source, one: Tuple[int, int], other: Tuple[int, int]) -> Iterator[Change]:
    """Two arguments in each other's place and, where they are names, one in place of both."""
    yield swapped(source, one, other)
    yield from doubled(source, one, other)


def doubled(source: Source, one: Tuple[int, int], other: Tuple[int, int]) -> Iterator[Change]:
    """One of two arguments in place of both, where they are names."""
    if is_name(source, *one) and is_name(source, *other):
        yield Change("argument", *source.span(*one), source.between(*other))
        yield Change("argument", *source.span(*other), source.between(*one))


def call_arguments(reading: Reading, declared: Declared) -> Iterator[Change]:
    """Neighbouring arguments of a call in each other's place, or one in place of both, where their types may fit."""
    source, body = reading.source, reading.body
    for name in range(body.first, body.last):
        called, place = source.tokens[name], name + 1
        if source.is_at(place, "::<"):
            place = source.partner[place] + 1
        if not source.is_at(place, "(") or place in reading.patterns:
            continue
        if called.kind != "word" or called.text in KEYWORDS:
            continue
        arguments = source.parts(place + 1, source.partner[place])
        types = declared.argument_types(called.text, len(arguments))
        for one, other, first, second in zip(arguments, arguments[1:], types, types[1:]):
            if may_stand_for(first, second, is_literal(source, *one) and is_literal(source, *other)):
                yield from exchanged(source, one, other)


def receivers(reading: Reading) -> Iterator[Change]:
    """Two names that a method takes as numbers, one of them before the dot, as arguments of a call. With other methods that
    one is of another type. Where the order changes nothing they are not put in each other's place."""
    source, body = reading.source, reading.body
    for dot in range(body.first, body.last - 2):
        method = source.tokens[dot + 1].text
        if not source.is_at(dot, ".", method, "(") or method not in OF_TWO_NUMBERS:
            continue
        first = dot - 1
        while source.is_at(first - 1, "."):
            first -= 2
        pair = [(first, dot), *source.parts(dot + 3, source.partner[dot + 2])]
        if len(pair) == 2 and all(is_name(source, *one) for one in pair) and not source.is_at(first - 1, "::"):
            yield from (doubled if method in EITHER_ORDER else exchanged)(source, *pair)


def type_arguments(reading: Reading, declared: Declared) -> Iterator[Change]:
    """Neighbouring types in each other's place, or one in place of both, and a kind becomes each other one."""
    source, body = reading.source, reading.body
    for place in range(body.first, body.last):
        if not source.is_at(place, "::<"):
            continue
        types = source.parts(place + 1, source.partner[place])
        for one, other in zip(types, types[1:]):
            if source.tokens[one[0]].kind == "word" and source.tokens[other[0]].kind == "word":
                yield from exchanged(source, one, other)
        for first, last in types:
            for kind in declared.other_kinds(source, source.tokens[last - 1].text):
                yield Change("argument", *source.span(first, last), kind)


def field_values(reading: Reading, declared: Declared) -> Iterator[Change]:
    """The values of two neighbouring fields of a struct in each other's place, where their types may fit."""
    source, body = reading.source, reading.body
    for place in range(body.first, body.last):
        struct = source.tokens[place - 1].text
        if not source.is_at(place, "{") or place in reading.blocks or struct not in declared.fields:
            continue
        fields = []
        for first, last in source.parts(place + 1, source.partner[place]):
            fields.append((first, first + 2 if source.is_at(first + 1, ":") else first, last))
        for (first, value, last), (first2, value2, last2) in zip(fields, fields[1:]):
            name, name2 = source.tokens[first].text, source.tokens[first2].text
            types = declared.field_type(struct, name), declared.field_type(struct, name2)
            if may_stand_for(*types, is_literal(source, value, last) and is_literal(source, value2, last2)):
                gap = source.text[source.tokens[last - 1].end : source.tokens[first2].start]
                new = f"{name}: {source.between(value2, last2)}{gap}{name2}: {source.between(value, last)}"
                yield Change("argument", *source.span(first, last2), new)


def indexes(reading: Reading) -> Iterator[Change]:
    source, body = reading.source, reading.body
    for place in range(body.first, body.last):
        if not source.is_at(place, "[") or place in reading.patterns or not is_operand_end(source.tokens, place - 1):
            continue
        if is_name(source, place + 1, source.partner[place]):
            start, end = source.span(place + 1, source.partner[place])
            yield Change("argument", start, end, source.text[start:end] + " + 1")


def is_one_comparison(source: Source, first: int, last: int) -> bool:
    """Whether an operator of the condition has its negation among the changes of operators."""
    if source.is_at(first, "!"):
        return source.find(first, last, "&&", "||", "==", "!=", "<", "<=", ">", ">=", "&", "|") is None
    return source.find(first, last, "&&", "||") is None and source.find(first, last, "==", "!=") is not None


def conditions(reading: Reading) -> Iterator[Change]:
    source = reading.source
    for first, last in reading.conditions:
        block_end = source.partner[last]
        returns = source.find(last + 1, block_end, "return") is not None
        early = source.is_at(first - 1, "if") and returns and not source.is_at(block_end + 1, "else")
        start, end = source.span(first, last)
        if source.is_at(first, "let"):
            if early:
                yield Change("branch", source.tokens[first - 1].start, source.tokens[block_end].end, "")
            continue
        if not is_one_comparison(source, first, last):
            yield Change("branch", start, end, f"!({source.text[start:end]})")
        if early:
            yield Change("branch", start, end, "false")


def binds(source: Source, first: int, last: int) -> bool:
    """Whether a pattern gives a name to anything: a word in lower case that is no part of a path."""
    return any(
        token.kind == "word"
        and token.text[0].islower()
        and token.text not in ("true", "false")
        and not source.is_at(place + 1, "::")
        for place, token in enumerate(source.tokens[first:last], first)
    )


def arms(reading: Reading) -> Iterator[Change]:
    source = reading.source
    for found in reading.arms:
        for (first, arrow, end), (first2, arrow2, end2) in zip(found, found[1:]):
            if not binds(source, first, arrow) and not binds(source, first2, arrow2):
                change = swapped(source, (arrow + 1, end), (arrow2 + 1, end2))
                yield Change("branch", change.start, change.end, change.new)
        for _, arrow, end in found:
            assigns = source.find(arrow + 1, end, *ASSIGNMENTS) is not None
            if assigns or source.is_at(arrow + 1, "return"):
                yield Change("branch", *source.span(arrow + 1, end), "{}")


def constructors(reading: Reading, declared: Declared) -> Iterator[Change]:
    """A variant becomes its neighbours of those that hold the same, or one that holds nothing."""
    source, body = reading.source, reading.body
    for place in range(body.first, body.last - 2):
        variants = declared.enums.get(source.tokens[place].text, {})
        variant = source.tokens[place + 2]
        if variant.text not in variants or not source.is_at(place + 1, "::") or place in reading.patterns:
            continue
        held = variants[variant.text]
        alike = [other for other in variants if variants[other] == held]
        at = alike.index(variant.text)
        for other in dict.fromkeys((alike[(at + 1) % len(alike)], alike[at - 1])):
            if other != variant.text:
                yield Change("branch", variant.start, variant.end, other)
        empty = [other for other in variants if held and not variants[other]]
        if empty:
            yield Change("branch", variant.start, source.tokens[source.partner[place + 3]].end, empty[0])


def options(reading: Reading, declared: Declared) -> Iterator[Change]:
    """A `Some` becomes `None`, and a `None` that is given back `Some` of a variant that holds nothing. No crate declares
    Option, and its variants stand without its name."""
    source, body = reading.source, reading.body
    arrow = source.find(body.head, body.first, "->")
    given = source.tokens[arrow + 3].text if arrow is not None and source.is_at(arrow + 1, "Option", "<") else ""
    empty = [variant for variant, held in declared.enums.get(given, {}).items() if not held]
    for place in range(body.first, body.last):
        token = source.tokens[place]
        if source.is_at(place, "Some", "(") and place not in reading.patterns:
            yield Change("branch", token.start, source.tokens[source.partner[place + 1]].end, "None")
        elif source.is_at(place - 1, "return", "None") and empty:
            yield Change("branch", token.start, token.end, f"Some({given}::{empty[0]})")


def deletions(reading: Reading) -> Iterator[Change]:
    """An assignment or a call that stands alone goes."""
    source = reading.source
    for block in reading.blocks:
        place, last = block + 1, source.partner[block]
        while place < last:
            word = source.tokens[place].text
            if word in HEADS:
                start = source.find(place, last, "{")
                assert start is not None
                place = source.partner[start] + 1
                while source.is_at(place, "else"):
                    start = source.find(place, last, "{")
                    assert start is not None
                    place = source.partner[start] + 1
                continue
            end = source.find(place, last, ";")
            if end is None:
                break
            alone = source.find(place, end, *ASSIGNMENTS) is not None or source.is_at(end - 1, ")")
            if word not in ("let", "return", "break", "continue") and alone and place < end:
                yield Change("branch", *source.span(place, end + 1), "")
            place = end + 1


def changes_of(source: Source, body: Body, declared: Declared) -> List[Change]:
    """All changes of a body, in the order of the text. Of those that give the same text one is kept."""
    reading = Reading(source, body)
    found: List[Change] = list(numbers(reading))
    if not body.constant:
        for some in (operators, receivers, indexes, conditions, arms, deletions):
            found += some(reading)
        for others in (call_arguments, type_arguments, field_values, constructors, options):
            found += others(reading, declared)
    found.sort(key=lambda change: (change.start, change.end, KINDS.index(change.kind), change.new))
    texts: Set[str] = {source.text}
    kept = []
    for change in found:
        text = applied(source, change)
        if text not in texts:
            texts.add(text)
            kept.append(change)
    return kept


def applied(source: Source, change: Change) -> str:
    return with_changes(source.text, [change])


def with_changes(text: str, changes: Sequence[Change]) -> str:
    """The text with some changes of it, no two of which meet."""
    ordered = sorted(changes, key=lambda change: change.start)
    assert all(one.end <= other.start for one, other in zip(ordered, ordered[1:]))
    for change in reversed(ordered):
        text = text[: change.start] + change.new + text[change.end :]
    return text
