"""Reads a body: where its patterns, its blocks, its conditions and the arms of its matches are."""

from __future__ import annotations

from typing import List, Set, Tuple

from source import Body, Source

HEADS = ("if", "while", "match", "for", "loop")


class Reading:
    """What a body holds: where its patterns, with type arguments and the parameters of closures, and its blocks are."""

    def __init__(self, source: Source, body: Body) -> None:
        self.source = source
        self.body = body
        self.patterns: Set[int] = set()
        self.blocks: List[int] = []
        self.conditions: List[Tuple[int, int]] = []
        self.arms: List[List[Tuple[int, int, int]]] = []
        if not body.constant:
            self.blocks.append(body.first - 1)
        for place in range(body.first, body.last):
            self.read(place)

    def read(self, place: int) -> None:
        source, word = self.source, self.source.tokens[place].text
        if word == "let":
            end = source.find(place, self.body.last, "=", ";")
            assert end is not None
            self.patterns.update(range(place, end))
        elif word == "for":
            end = source.find(place, self.body.last, "in")
            assert end is not None
            self.patterns.update(range(place, end))
        elif word in ("::<", "|") and place in source.partner:
            self.patterns.update(range(place, source.partner[place] + 1))
        if word == "else" and source.is_at(place + 1, "{"):
            self.blocks.append(place + 1)
        elif word in HEADS:
            start = source.find(place, self.body.last, "{")
            assert start is not None
            if word == "match":
                self.read_arms(start)
            else:
                self.blocks.append(start)
            if word in ("if", "while"):
                self.conditions.append((place + 1, start))

    def read_arms(self, start: int) -> None:
        source, arms = self.source, []
        place, last = start + 1, source.partner[start]
        while place < last:
            arrow = source.find(place, last, "=>")
            assert arrow is not None
            self.patterns.update(range(place, arrow))
            if source.is_at(arrow + 1, "{"):
                self.blocks.append(arrow + 1)
                end = source.partner[arrow + 1] + 1
            else:
                comma = source.find(arrow + 1, last, ",")
                end = last if comma is None else comma
            arms.append((place, arrow, end))
            place = end + 1 if source.is_at(end, ",") else end
        self.arms.append(arms)
