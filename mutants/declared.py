"""What the crates declare: enums, and the types of parameters and fields."""

from __future__ import annotations

import os
import re
from typing import Dict, List, Optional, Sequence, Tuple

from source import Source

INTEGER = re.compile(r"[ui](8|16|32|64|size)")


class Declared:
    def __init__(self, sources: Sequence[Source]) -> None:
        # The variants of each enum, each with the types that it holds.
        self.enums: Dict[str, Dict[str, List[str]]] = {}
        # The types of the parameters of every function, and of what every variant holds, by name.
        self.parameters: Dict[str, List[List[str]]] = {}
        # The types of the fields of every struct, and the file that declares it.
        self.fields: Dict[str, Dict[str, str]] = {}
        self.files: Dict[str, str] = {}
        # The kinds: the structs that are type arguments of some call, each with the file that declares it.
        self.kinds: Dict[str, str] = {}
        for source in sources:
            for place, token in enumerate(source.tokens):
                if token.text in ("enum", "struct", "fn"):
                    self.read(source, token.text, place + 1)
        for source in sources:
            for place, token in enumerate(source.tokens):
                if token.text == "::<":
                    self.read_kinds(source, place)

    def read(self, source: Source, word: str, place: int) -> None:
        name = source.tokens[place].text
        start = source.find(place, len(source.tokens), "(", "{", ";")
        assert start is not None
        parts = source.parts(start + 1, source.partner[start])
        if word == "enum":
            self.enums[name] = dict(variant(source, *part) for part in parts)
            for other, held in self.enums[name].items():
                self.parameters.setdefault(other, []).append(held)
            return
        typed = dict(named_type(source, *part) for part in parts)
        if word == "fn":
            self.parameters.setdefault(name, []).append(list(typed.values()))
        else:
            self.fields[name] = typed
            self.files[name] = source.path

    def read_kinds(self, source: Source, place: int) -> None:
        for _, last in source.parts(place + 1, source.partner[place]):
            name = source.tokens[last - 1].text
            if name in self.files:
                self.kinds[name] = self.files[name]

    def other_kinds(self, source: Source, kind: str) -> List[str]:
        """The other kinds where this is one, each with its path if the file names it nowhere."""
        words = {token.text for token in source.tokens}
        others = [other for other in self.kinds if other != kind and kind in self.kinds]
        return [other if other in words else path_to(self.kinds[other], other, source.path) for other in others]

    def argument_types(self, name: str, count: int) -> List[Optional[str]]:
        """The types of the arguments of a call, each nothing where that cannot be told from the function's name."""
        found = [types for types in self.parameters.get(name, []) if len(types) == count]
        return [some[0] if len(set(some)) == 1 else None for some in zip(*found)] or [None] * count

    def field_type(self, struct: str, field: str) -> Optional[str]:
        return self.fields.get(struct, {}).get(field)


def path_to(file: str, name: str, other: str) -> str:
    """The path of what a file declares, in another file."""
    _, crate, _, *modules = os.path.splitext(file)[0].split("/")
    head = "crate" if other.split("/")[1] == crate else crate
    return "::".join([head] + (modules if modules != ["lib"] else []) + [name])


def plain(words: Sequence[str]) -> str:
    """A type without lifetimes and `mut`. A slice and an array are one."""
    text = " ".join(word for word in words if word != "mut" and not word.startswith("'"))
    return re.sub(r"^& \[ (\w+) ; \w+ \]$", r"& [ \1 ]", text)


def named_type(source: Source, first: int, last: int) -> Tuple[str, str]:
    colon = source.find(first, last, ":")
    start = first if colon is None else colon + 1
    return source.tokens[start - 2].text, plain([token.text for token in source.tokens[start:last]])


def variant(source: Source, first: int, last: int) -> Tuple[str, List[str]]:
    held = source.parts(first + 2, last - 1)
    return source.tokens[first].text, [plain([token.text for token in source.tokens[a:b]]) for a, b in held]


def may_stand_for(one: Optional[str], other: Optional[str], literals: bool) -> bool:
    """Whether a value of one type may be one of another. Of integers only literals may."""
    if one is None or other is None or one == other:
        return True
    return literals and INTEGER.fullmatch(one) is not None and INTEGER.fullmatch(other) is not None
