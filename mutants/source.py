"""Reads Rattle source: its tokens, its functions' bodies, its constants and its enums."""

from __future__ import annotations

import re
from dataclasses import dataclass, field
from typing import Dict, Iterator, List, Optional, Sequence, Tuple

TOKEN = re.compile(
    r"""
    (?P<space>\s+)
  | (?P<bytes>b?"(?:\\.|[^"\\])*")
  | (?P<byte>b'(?:\\x[0-9a-fA-F]{2}|\\.|[^'\\])')
  | (?P<lifetime>'[A-Za-z_]\w*)
  | (?P<number>(?:0x[0-9a-fA-F_]+|[0-9][0-9_]*)(?:[ui](?:8|16|32|64|size))?)
  | (?P<word>[A-Za-z_]\w*)
  | (?P<mark>\.\.=|\.\.|::<|::|->|=>|<<=|>>=|<<|>>|<=|>=|==|!=|&&|\|\||[-+*/%&|^]=|[-+*/%<>=!&|^.,;:?\#@(){}\[\]])
    """,
    re.VERBOSE | re.ASCII,
)

# Text of contracts, `ghost use` lines and comments. A clause ends at the brace that closes it.
CLAUSE = re.compile(r"\b(?:requires|ensures|ghost)\b\*?(?:\s+\w+(?=\s*[:{]))?\s*:?\s*\{")
SKIPPED = re.compile(r"//[^\n]*|\bghost\s+use\b[^;]*;|b?\"(?:\\.|[^\"\\])*\"|" + CLAUSE.pattern)

KEYWORDS = frozenset(
    "as break const continue else enum extern fn for if impl in let loop match mod move mut pub return struct type use"
    " while".split()
)
OPENING = {"(": ")", "[": "]", "{": "}", "::<": ">", "<": ">", "|": "|"}
# The modules of std that read and write files.
FILES = frozenset(("io", "fs"))
# What stands before a module of tests.
TESTS = ["#", "[", "cfg", "(", "test", ")", "]", "mod"]


class SourceError(Exception):
    """The text is not what this program reads."""


@dataclass(frozen=True)
class Token:
    kind: str
    text: str
    start: int
    end: int


@dataclass(frozen=True)
class Body:
    """A function's body or a constant's value: its name and the places of its `fn` or `const`, of its first token and
    of the one after it. What a function does is promised where it has an `ensures` and reads and writes no file, of which no
    promise can speak; a constant promises nothing."""

    name: str
    constant: bool
    promised: bool
    head: int
    first: int
    last: int


@dataclass
class Source:
    path: str
    text: str
    tokens: List[Token]
    partner: Dict[int, int]
    bodies: List[Body] = field(default_factory=list)

    def line(self, offset: int) -> int:
        return self.text.count("\n", 0, offset) + 1

    def line_text(self, offset: int) -> str:
        start = self.text.rfind("\n", 0, offset) + 1
        return self.text[start : (self.text + "\n").index("\n", offset)].strip()

    def column(self, offset: int) -> int:
        """How far an offset lies from the first mark of its line."""
        start = self.text.rfind("\n", 0, offset) + 1
        return len(self.text[start:offset].lstrip())

    def is_at(self, place: int, *texts: str) -> bool:
        """Whether the tokens from a place on are these."""
        found = self.tokens[place : place + len(texts)] if place >= 0 else []
        return [token.text for token in found] == list(texts)

    def find(self, place: int, last: int, *texts: str) -> Optional[int]:
        """The first place of one of these marks from a place on, outside the brackets that open there."""
        while place < last:
            if self.tokens[place].text in texts:
                return place
            place = self.partner.get(place, place) + 1
        return None

    def parts(self, first: int, last: int) -> List[Tuple[int, int]]:
        """The places between commas outside brackets. A comma at the end adds none."""
        found = []
        while first < last:
            comma = self.find(first, last, ",")
            end = last if comma is None else comma
            found.append((first, end))
            first = end + 1
        return found

    def span(self, first: int, last: int) -> Tuple[int, int]:
        """The offsets of the text from a token up to another, which is left out."""
        return self.tokens[first].start, self.tokens[last - 1].end

    def between(self, first: int, last: int) -> str:
        start, end = self.span(first, last)
        return self.text[start:end]

    def names_at(self, line: int) -> List[str]:
        """The names of the bodies whose items have a part of a line."""
        spans = {body.name: self.span(body.head, body.last + 1) for body in self.bodies}
        return [name for name, (start, end) in spans.items() if self.line(start) <= line <= self.line(end)]


def without_contracts(text: str) -> str:
    """The text with spaces for contracts, `ghost use` lines and comments, so that every other place stays."""
    kept, at = [], 0
    while (found := SKIPPED.search(text, at)) is not None:
        end = found.end()
        if CLAUSE.match(found.group()):
            depth = 1
            while depth > 0:
                brace = re.compile(r"[{}]").search(text, end)
                if brace is None:
                    raise SourceError("a contract's brace is not closed")
                depth += 1 if brace.group() == "{" else -1
                end = brace.end()
        kept.append(text[at : found.start()])
        skipped = text[found.start() : end]
        kept.append(skipped if skipped.endswith('"') else re.sub(r"[^\n]", " ", skipped))
        at = end
    kept.append(text[at:])
    return "".join(kept)


def without_tests(path: str, tokens: List[Token]) -> List[Token]:
    """The tokens but those of modules of tests."""
    partner, found, place = partners(path, tokens), [], 0
    while place < len(tokens):
        if [token.text for token in tokens[place : place + len(TESTS)]] == TESTS:
            place = partner[place + len(TESTS) + 1] + 1
        else:
            found.append(tokens[place])
            place += 1
    return found


def tokens_of(path: str, text: str) -> List[Token]:
    found, at = [], 0
    plain = without_contracts(text)
    while at < len(plain):
        match = TOKEN.match(plain, at)
        if match is None:
            raise SourceError(f"{path}:{plain.count(chr(10), 0, at) + 1}: {plain[at]!r} begins no token")
        if match.lastgroup != "space":
            found.append(Token(str(match.lastgroup), match.group(), at, match.end()))
        at = match.end()
    return found


def is_operand_end(tokens: Sequence[Token], place: int) -> bool:
    token = tokens[place]
    if token.kind == "mark":
        return token.text in (")", "]", "?")
    return token.text not in KEYWORDS


def opens(tokens: Sequence[Token], place: int, within: str) -> bool:
    """Whether a mark opens a bracket within another. Type arguments and a closure's parameters stand in brackets."""
    text = tokens[place].text
    if text == "<":
        return within in ("::<", "<")
    if text == "|":
        return within != "|" and tokens[place - 1].text != "}" and not is_operand_end(tokens, place - 1)
    return text in OPENING


def partners(path: str, tokens: Sequence[Token]) -> Dict[int, int]:
    """The place of the closing bracket for each opening one."""
    found: Dict[int, int] = {}
    waiting: List[int] = []
    for place, token in enumerate(tokens):
        if token.kind != "mark":
            continue
        within = tokens[waiting[-1]].text if waiting else ""
        if opens(tokens, place, within):
            waiting.append(place)
        elif token.text == OPENING.get(within):
            found[waiting.pop()] = place
        elif token.text == ">>" and within == "<":
            found[waiting.pop()] = found[waiting.pop()] = place
        elif token.text in (")", "]", "}"):
            raise SourceError(f"{path}: a bracket {token.text} closes nothing")
    if waiting:
        raise SourceError(f"{path}: a bracket is not closed")
    return found


def read_source(path: str, text: str) -> Source:
    tokens = without_tests(path, tokens_of(path, text))
    source = Source(path, text, tokens, partners(path, tokens))
    source.bodies = list(bodies(source, 0, len(tokens), ""))
    return source


def has_promise(text: str) -> bool:
    """Whether an `ensures` stands in the text, outside its comments."""
    return any(found.group().startswith("ensures") for found in SKIPPED.finditer(text))


def uses_files(tokens: Sequence[Token]) -> bool:
    """Whether some of the tokens name a module that reads and writes files."""
    return any(one.text in FILES and other.text == "::" for one, other in zip(tokens, tokens[1:]))


def bodies(source: Source, place: int, last: int, owner: str) -> Iterator[Body]:
    """The bodies and constants of the items from a place on, with the type that an `impl` is for, or the trait, before their names."""
    tokens = source.tokens
    while place < last:
        word = tokens[place].text
        if word == "fn":
            start = source.find(place, last, "{", ";")
            if start is None or tokens[start].text == ";":
                raise SourceError(f"{source.path}: {tokens[place + 1].text} has no body")
            end = source.partner[start]
            promised = has_promise(source.text[tokens[place].start : tokens[start].start])
            promised = promised and not uses_files(tokens[place:end])
            yield Body(owner + tokens[place + 1].text, False, promised, place, start + 1, end)
            place = start
        elif word == "const":
            end = source.find(place, last, ";")
            assert end is not None
            value = source.find(place, end, "=")
            if value is not None:
                yield Body(owner + tokens[place + 1].text, True, False, place, value + 1, end)
            place = end
        elif word in ("impl", "trait"):
            start = source.find(place, last, "{")
            assert start is not None
            named = start - 1 if word == "impl" else place + 1
            yield from bodies(source, start + 1, source.partner[start], tokens[named].text + "::")
            place = start
        place = source.partner.get(place, place) + 1
