"""Where mutants are judged: a copy of a crate, and of what an earlier check of it keeps."""

from __future__ import annotations

import os
import shutil
from typing import Dict, Sequence, Tuple

import program
from catalogue import Mutant, texts_with
from checker import PROVED, CheckerError, Kit, Verdict


def judged(kit: Kit, crate: str, folder: str, incremental: str, promised: bool) -> Verdict:
    """The verdict on a crate in a folder: the checker's and, for a change of a program that touches no promise, also
    the gate's on what the program writes."""
    if promised or not kit.is_program(crate):
        return kit.check(crate, folder, incremental)
    return program.judged(kit, crate, folder, incremental)


def stamps(folder: str) -> Dict[str, Tuple[int, int, int]]:
    """Size, time and inode of every file below a folder."""
    found = {}
    for where, _, names in os.walk(folder):
        for name in names:
            path = os.path.join(where, name)
            status = os.stat(path)
            found[os.path.relpath(path, folder)] = (status.st_size, status.st_mtime_ns, status.st_ino)
    return found


class Primed:
    """A crate's incremental folder after a check of the crate as it is; it is only copied from."""

    def __init__(self, kit: Kit, crate: str, folder: str) -> None:
        self.kit = kit
        self.crate = crate
        self.source = os.path.join(kit.root, "crates", crate)
        self.incremental = folder
        os.makedirs(folder)
        found = judged(kit, crate, self.source, self.incremental, False)
        if found.answer != PROVED:
            raise CheckerError(f"{found.said}\n{crate} does not pass as it is")


class Bench:
    """A copy of a crate and of its incremental folder, in which mutants are judged, one check after the other."""

    def __init__(self, primed: Primed, folder: str) -> None:
        self.primed = primed
        self.folder = os.path.join(folder, primed.crate)
        self.incremental = os.path.join(folder, "incremental")
        for part in ("src", "specs", "proofs"):
            if os.path.isdir(os.path.join(primed.source, part)):
                shutil.copytree(os.path.join(primed.source, part), os.path.join(self.folder, part))
        shutil.copytree(primed.incremental, self.incremental)
        self.stamps = stamps(self.incremental)

    def judge_as_it_is(self, promised: bool = False) -> Verdict:
        return judged(self.primed.kit, self.primed.crate, self.folder, self.incremental, promised)

    def judge(self, mutants: Sequence[Mutant]) -> Verdict:
        """The verdict on some mutants in one check. Both folders are then as they were, so that no verdict rests on an
        earlier check."""
        before = {mutant.file: mutant.original for mutant in mutants}
        try:
            self.write(texts_with(mutants))
            return self.judge_as_it_is(all(mutant.promised for mutant in mutants))
        finally:
            self.write(before)
            self.restore()

    def write(self, texts: Dict[str, str]) -> None:
        for name, text in texts.items():
            with open(os.path.join(self.folder, name), "w", encoding="utf-8") as file:
                file.write(text)

    def restore(self) -> None:
        now = stamps(self.incremental)
        for name in now.keys() - self.stamps.keys():
            os.remove(os.path.join(self.incremental, name))
        for name, stamp in self.stamps.items():
            if now.get(name) != stamp:
                path = os.path.join(self.incremental, name)
                shutil.copy2(os.path.join(self.primed.incremental, name), path)
                status = os.stat(path)
                self.stamps[name] = (status.st_size, status.st_mtime_ns, status.st_ino)
