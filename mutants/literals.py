"""Literals of numbers and bytes: their values, and others written alike."""

from __future__ import annotations

import re


def grouped(text: str, width: int) -> str:
    """Digits with a mark between groups, from the right."""
    first = len(text) % width
    groups = [text[:first]] if first else []
    groups += [text[place : place + width] for place in range(first, len(text), width)]
    return "_".join(groups)


def with_number(literal: str, n: int) -> str:
    """A literal of a number, written as another literal is."""
    parts = re.fullmatch(r"(0x)?([0-9a-fA-F_]+?)([ui](?:8|16|32|64|size))?", literal)
    assert parts is not None, literal
    prefix, digits, suffix = parts.group(1) or "", parts.group(2), parts.group(3) or ""
    text = format(n, "x") if prefix else str(n)
    if "_" in digits:
        text = grouped(text, 4 if prefix else 3)
    return prefix + text + suffix


def number_of(literal: str) -> int:
    return int(re.sub(r"[ui](8|16|32|64|size)$", "", literal).replace("_", ""), 0)


def byte_literal(n: int) -> str:
    return f"b'{chr(n)}'" if 32 <= n < 127 and chr(n) not in "'\\" else str(n)


def byte_of(literal: str) -> int:
    text = literal[2:-1]
    return text.encode().decode("unicode_escape").encode("latin-1")[0]
