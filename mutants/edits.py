#!/usr/bin/env python3
"""Reads the wrong edits that stand in must-fail/ of each crate, which `rt ci` tries: every function that promises something
has to have one that changes its body.

    python3 edits.py [CRATE...]    those of some crates; all without a name

An edit is what `rt must-fail` reads: a `file:` line holds for the `old:` and `new:` lines after it. Exit status 1 where an
edit does not fit its crate, or a promise has none.
"""

from __future__ import annotations

import argparse
import os
import sys
from dataclasses import dataclass
from typing import Dict, List, Optional, Sequence, Tuple

HERE = os.path.dirname(os.path.abspath(__file__))
ROOT = os.path.dirname(HERE)
sys.path.insert(0, HERE)

from catalogue import crate_names, proof_of, sources_in  # noqa: E402
from source import SourceError, read_source  # noqa: E402

PARTS = ("src", "specs", "proofs")


class EditError(Exception):
    """An edit does not fit its crate."""


@dataclass(frozen=True)
class Edit:
    crate: str
    name: str
    pairs: Tuple[Tuple[str, str, str], ...]

    def title(self) -> str:
        return f"{self.crate}/{self.name}"


def read_edit(crate: str, name: str, text: str) -> Edit:
    pairs, file, old = [], "", ""
    for line in text.splitlines():
        if line.startswith("file: "):
            file = line[len("file: ") :]
        elif line.startswith("old: "):
            old = line[len("old: ") :]
        elif line.startswith("new:"):
            parts = file.split("/")
            if parts[0] not in PARTS or ".." in parts or not old:
                raise EditError(f"{crate}/{name}: a pair without its file or its old text")
            pairs.append((file, old, line[len("new:") :].removeprefix(" ")))
            old = ""
    if not pairs:
        raise EditError(f"{crate}/{name}: it has no pair")
    return Edit(crate, name, tuple(pairs))


def edits_of(root: str, crate: str) -> List[Edit]:
    folder = os.path.join(root, "crates", crate, "must-fail")
    names = sorted(os.listdir(folder)) if os.path.isdir(folder) else []
    found = []
    for name in names:
        if name.endswith(".edit"):
            with open(os.path.join(folder, name), encoding="utf-8") as file:
                found.append(read_edit(crate, name[: -len(".edit")], file.read()))
    return found


class Files:
    """The files of a crate that edits change, with their changes."""

    def __init__(self, folder: str) -> None:
        self.folder = folder
        self.texts: Dict[str, str] = {}

    def text(self, file: str) -> str:
        if file not in self.texts:
            try:
                with open(os.path.join(self.folder, file), encoding="utf-8", newline="") as source:
                    self.texts[file] = source.read()
            except OSError as error:
                raise EditError(f"there is no {file}") from error
        return self.texts[file]

    def apply(self, edit: Edit) -> List[Optional[str]]:
        """Applies an edit; for each change in code gives the folder of the proof of the function whose body it is in, or
        None where it is in none."""
        owners: List[Optional[str]] = []
        for file, old, new in edit.pairs:
            text = self.text(file)
            if text.count(old) != 1:
                raise EditError(f"{edit.title()}: an 'old:' text is in {file} {text.count(old)} times")
            if file.startswith("src/"):
                owners.append(body_at(file, text, text.index(old), len(old)))
            self.texts[file] = text.replace(old, new)
        return owners


def body_at(file: str, text: str, start: int, length: int) -> Optional[str]:
    source = read_source(file, text)
    for body in source.bodies:
        first, last = source.span(body.first - 1, body.last + 1)
        if not body.constant and first < start and start + length < last:
            return proof_of(file, body.name)
    return None


def never_changed(folder: str, edits: Sequence[Edit]) -> List[str]:
    """The functions of a crate that promise something, and whose bodies none of the edits changes."""
    changed = {proof for edit in edits for proof in Files(folder).apply(edit)}
    return [
        f"{source.path} {body.name}"
        for source in sources_in(folder, folder)
        for body in source.bodies
        if body.promised and proof_of(source.path, body.name) not in changed
    ]


def main(words: Sequence[str]) -> int:
    parser = argparse.ArgumentParser(description="Every function that promises something has a wrong edit of its body.")
    parser.add_argument("crates", nargs="*", metavar="CRATE")
    wanted = parser.parse_args(words).crates
    names = crate_names(ROOT)
    for name in wanted:
        if name not in names:
            parser.error(f"crates.txt does not list {name}")
    count = 0
    for crate in wanted or names:
        folder, edits = os.path.join(ROOT, "crates", crate), edits_of(ROOT, crate)
        missing = never_changed(folder, edits)
        if missing:
            raise EditError(f"{crate}: no edit makes these functions wrong: {', '.join(missing)}")
        count += len(edits)
    print(f"{count} edits: every function that promises something has one that changes its body")
    return 0


if __name__ == "__main__":
    try:
        sys.exit(main(sys.argv[1:]))
    except (EditError, SourceError) as error:
        sys.exit(f"edits: {error}")
