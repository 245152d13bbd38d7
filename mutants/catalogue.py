"""The mutants of a repository: their names, a draw from them, and the list of those that are the same program."""

from __future__ import annotations

import glob
import hashlib
import os
import random
from collections import Counter
from dataclasses import dataclass
from typing import Dict, List, Sequence, Tuple

from changes import Change, changes_of, with_changes
from declared import Declared
from source import Body, Source, read_source


class ListError(Exception):
    """The list of mutants that are the same program is not as it has to be."""


@dataclass(frozen=True)
class Mutant:
    crate: str
    path: str
    function: str
    promised: bool
    kind: str
    line: int
    change: str
    within: str
    id: str
    edit: Change
    original: str

    @property
    def file(self) -> str:
        """Its path below the crate's folder."""
        return os.path.relpath(self.path, os.path.join("crates", self.crate))

    @property
    def proof(self) -> str:
        return proof_of(self.file, self.function)

    @property
    def name(self) -> str:
        """What names the mutant in the list, whatever stands elsewhere in its file."""
        return f"{self.id} {self.path} {self.function}: {self.change} in {self.within}"

    @property
    def shown(self) -> str:
        return f"{self.path}:{self.line} {self.kind}: {self.change}"


def proof_of(file: str, function: str) -> str:
    """The folder of a function's proof, if it is written; both paths are below the crate's folder."""
    modules = os.path.splitext(file)[0].split(os.sep)[1:]
    if modules in (["lib"], ["main"]):
        modules = []
    return os.path.join("proofs", *modules, *function.split("::"))


def texts_with(mutants: Sequence[Mutant]) -> Dict[str, str]:
    """The files of some mutants of a crate, by their paths below its folder, each with all changes of it."""
    originals = {mutant.file: mutant.original for mutant in mutants}
    return {
        file: with_changes(text, [mutant.edit for mutant in mutants if mutant.file == file])
        for file, text in originals.items()
    }


def one_line(text: str) -> str:
    return " ".join(text.split()) or "nothing"


def crate_names(root: str) -> List[str]:
    with open(os.path.join(root, "crates.txt"), encoding="utf-8") as file:
        lines = [line.split("#")[0] for line in file]
    return [line.split(":")[0].split()[0] for line in lines if line.strip()]


def sources_in(folder: str, root: str) -> List[Source]:
    """The code of the crate in a folder, its paths told from a root."""
    found = []
    for path in sorted(glob.glob(os.path.join(folder, "src", "**", "*.rt"), recursive=True)):
        with open(path, encoding="utf-8") as file:
            found.append(read_source(os.path.relpath(path, root), file.read()))
    return found


def sources_of(root: str, crate: str) -> List[Source]:
    return sources_in(os.path.join(root, "crates", crate), root)


def mutants_of_body(crate: str, source: Source, body: Body, declared: Declared) -> List[Mutant]:
    seen: Counter = Counter()
    found = []
    for change in changes_of(source, body, declared):
        shown = f"{one_line(source.text[change.start : change.end])} -> {one_line(change.new)}"
        within = source.line_text(change.start)
        key = "\n".join((source.path, body.name, change.kind, within, str(source.column(change.start)), shown))
        seen[key] += 1
        digest = hashlib.sha256(f"{key}\n{seen[key]}".encode()).hexdigest()[:10]
        found.append(
            Mutant(
                crate,
                source.path,
                body.name,
                body.promised,
                change.kind,
                source.line(change.start),
                shown,
                within,
                digest,
                change,
                source.text,
            )
        )
    return found


def all_mutants(root: str, crates: Sequence[str]) -> List[Mutant]:
    sources = {crate: sources_of(root, crate) for crate in crate_names(root)}
    declared = Declared([source for some in sources.values() for source in some])
    return [
        mutant
        for crate, some in sources.items()
        if crate in crates
        for source in some
        for body in source.bodies
        for mutant in mutants_of_body(crate, source, body, declared)
    ]


def drawn(mutants: Sequence[Mutant], count: int, seed: int) -> List[Mutant]:
    """So many mutants, as evenly over the functions as can be, in the order of the text."""
    chance = random.Random(seed)
    functions: Dict[Tuple[str, str], List[int]] = {}
    for number, mutant in enumerate(mutants):
        functions.setdefault((mutant.path, mutant.function), []).append(number)
    ranked = []
    for numbers in functions.values():
        chance.shuffle(numbers)
        ranked += [(rank, chance.random(), number) for rank, number in enumerate(numbers)]
    return [mutants[number] for _, _, number in sorted(sorted(ranked)[:count], key=lambda found: found[2])]


def read_list(text: str) -> Dict[str, str]:
    """The names in a list, each with its reason: lines that name mutants, then their reason, indented."""
    found: Dict[str, str] = {}
    waiting: List[str] = []
    reason: List[str] = []
    for line in text.splitlines() + ["end"]:
        if line.startswith("#") or not line.strip():
            continue
        if line[0].isspace():
            if not waiting:
                raise ListError(f"a reason stands below no mutant: {line.strip()}")
            reason.append(line.strip())
            continue
        if reason:
            found.update((name, " ".join(reason)) for name in waiting)
            waiting, reason = [], []
        if line in found or line in waiting:
            raise ListError(f"named twice: {line}")
        waiting.append(line)
    if waiting != ["end"]:
        raise ListError(f"no reason is given for: {waiting[0]}")
    return found


def check_list(listed: Dict[str, str], mutants: Sequence[Mutant]) -> None:
    names = {mutant.name for mutant in mutants}
    for name in listed:
        if name not in names:
            raise ListError(f"there is no such mutant: {name}")
