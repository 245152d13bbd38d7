"""Rounds: one check of a crate in which one mutant of each of several functions is applied.

Why a round is as good as a check of each mutant alone: the checker proves functions apart. Of what a function calls
its proof cites the contract and the theorem that this is met; code and proof are private to their own function. So a
change of one body reaches the proof of another function only where that cites a theorem which is no longer admitted,
and there the checker says just this. Nor does it stop at the first error: it says those of every proof. What it says
against a function besides therefore comes from the change in this function, and it would say so of this change alone.

A round decides only on a mutant that it refuses at a fact: a goal of the mutant's own function is refused for what it
says, by an error in this function's proof or, where the checker finds the proof, by a note at this function's code.
Of any other mutant a round tells nothing, and it is judged alone. So whatever survives has passed a check of its own.
Where a goal is refused of anything that was not changed, a round decides nothing at all.
"""

from __future__ import annotations

import os
import re
from dataclasses import dataclass
from typing import Dict, List, Optional, Sequence, Set

from catalogue import Mutant, proof_of, texts_with
from checker import AT_A_FACT, FRONT_END, NO_PROGRAM, Verdict, facts
from source import read_source

PLACE = re.compile(r"(.+):(\d+):\d+")
# The files of a function's proof.
WRITTEN = ("Answers.antt", "Invariants.antt", "Proof.antt")
# The folder of the proof of a function that calls itself.
CYCLE_OF_ONE = re.compile(r"\+([^+/]+)$")


@dataclass(frozen=True)
class Told:
    """What a check tells of its mutants: which it decides, which are to be judged alone, and which in another round."""

    decided: List[Mutant]
    alone: List[Mutant]
    again: List[Mutant]


def next_round(left: List[Mutant], alone: Set[Mutant]) -> List[Mutant]:
    """Takes the mutants to judge next from those of a crate that are left: the first of those that have to be judged
    alone or, where there are none, the first of each function."""
    single = [mutant for mutant in left if mutant in alone][:1]
    firsts = {mutant.proof: mutant for mutant in reversed(left)}
    taken = single or [mutant for mutant in left if firsts[mutant.proof] is mutant]
    left[:] = [mutant for mutant in left if mutant not in taken]
    return taken


def owner(place: str, folder: str, texts: Dict[str, str]) -> Optional[str]:
    """The folder of the proof that a place belongs to: the one that its file stands in or, in the code of a changed file,
    that of the function there; of another file its own path."""
    found = PLACE.fullmatch(place)
    if found is None:
        return None
    file = os.path.relpath(os.path.join(folder, found.group(1)), folder)
    if file not in texts:
        proof, name = os.path.split(file)
        is_of_function = name in WRITTEN and proof != "proofs"
        return CYCLE_OF_ONE.sub(r"\1", proof) if is_of_function else file
    names = read_source(file, texts[file]).names_at(int(found.group(2)))
    return proof_of(file, names[0]) if len(names) == 1 else None


def told(mutants: Sequence[Mutant], found: Verdict, folder: str) -> Told:
    """What the verdict of a check in a folder tells of the mutants that were applied there."""
    if len(mutants) == 1:
        return Told(list(mutants), [], [])
    texts = texts_with(mutants)
    proofs = {mutant.proof for mutant in mutants}
    if found.answer == NO_PROGRAM:
        named = {owner(place, folder, texts) for place in FRONT_END.findall(found.said)} & proofs or proofs
        others = [mutant for mutant in mutants if mutant.proof not in named]
        return Told([], [mutant for mutant in mutants if mutant.proof in named], others)
    refused = {owner(place, folder, texts) for place in facts(found.said)} if found.answer == AT_A_FACT else set()
    if not refused <= proofs:
        refused = set()
    others = [mutant for mutant in mutants if mutant.proof not in refused]
    return Told([mutant for mutant in mutants if mutant.proof in refused], others, [])
