#!/usr/bin/env python3
"""Changes one operator, number, argument or branch of a function's body at a time; the checker must refuse each.
Where a function of a program promises nothing, or reads or writes files, the program must write something else than the
gate wants. One check judges mutants of several functions where it can (rounds.py).

    python3 mutants.py [COUNT [SEED]]    COUNT of the mutants, drawn by SEED (1 if not given); all without COUNT
        --crate NAME     only those of a crate; may be given again
        --unpromised     only those in such functions
        --list           print them and check none
        --keep FOLDER    keep there what the checker, or the program, says of each

A mutant that is the same program stands in same_program.txt with its reason. Exit status 1 where another one passes, or
nothing is told of it. MUTANTS_JOBS is how many checks run at a time. Their files stand in the folder TMPDIR or, without
it, in memory where that has room.
"""

from __future__ import annotations

import argparse
import os
import shutil
import sys
import tempfile
import threading
import time
from collections import Counter
from concurrent.futures import ThreadPoolExecutor
from typing import Dict, List, Optional, Sequence, Set

HERE = os.path.dirname(os.path.abspath(__file__))
ROOT = os.path.dirname(HERE)
sys.path.insert(0, HERE)

import catalogue  # noqa: E402
from bench import Bench, Primed  # noqa: E402
from catalogue import ListError, Mutant  # noqa: E402
from changes import KINDS  # noqa: E402
from checker import AT_A_FACT, BY_SHAPE, NO_PROGRAM, NOT_TOLD, PROVED  # noqa: E402
from checker import CheckerError, Kit, Verdict, memory  # noqa: E402
from program import BY_OUTPUT, TESTS  # noqa: E402
from rounds import Told, next_round, told  # noqa: E402
from source import SourceError  # noqa: E402

LIST = os.path.join(HERE, "same_program.txt")

SAME = "the same program, as listed"
SURVIVES = "SURVIVES"
COLUMNS = (
    ("at a fact", AT_A_FACT),
    ("by shape", BY_SHAPE),
    ("no program", NO_PROGRAM),
    ("by output", BY_OUTPUT),
    ("same", SAME),
    ("not told", NOT_TOLD),
    ("survive", SURVIVES),
)


class Schedule:
    """Which crate a worker takes next, one that nobody has begun or else one that has mutants left, and which of its
    mutants."""

    def __init__(self, mutants: Sequence[Mutant], alone: Set[Mutant]) -> None:
        self.left: Dict[str, List[Mutant]] = {}
        for mutant in mutants:
            self.left.setdefault(mutant.crate, []).append(mutant)
        self.alone = alone
        self.unbegun = list(self.left)
        self.primed: Dict[str, Primed] = {}
        self.workers: Counter = Counter()
        self.change = threading.Condition()
        self.stopped = False

    def take_crate(self) -> Optional[str]:
        with self.change:
            while not self.stopped:
                ready = [crate for crate in self.left if self.left[crate] and crate in self.primed]
                if self.unbegun or ready:
                    crate = self.unbegun.pop(0) if self.unbegun else max(ready, key=lambda one: len(self.left[one]))
                    self.workers[crate] += 1
                    return crate
                if not any(self.workers.values()):
                    return None
                self.change.wait()
        return None

    def leave_crate(self, crate: str) -> None:
        """The last worker to leave a crate removes what was kept for it."""
        with self.change:
            self.workers[crate] -= 1
            if not self.workers[crate] and not self.left[crate]:
                shutil.rmtree(self.primed[crate].incremental)
            self.change.notify_all()

    def ready(self, crate: str, primed: Primed) -> None:
        with self.change:
            self.primed[crate] = primed
            self.change.notify_all()

    def take_mutants(self, crate: str) -> List[Mutant]:
        with self.change:
            return [] if self.stopped else next_round(self.left[crate], self.alone)

    def give_back(self, crate: str, found: Told) -> None:
        with self.change:
            self.alone.update(found.alone)
            self.left[crate] = found.alone + found.again + self.left[crate]
            self.change.notify_all()

    def stop(self) -> None:
        with self.change:
            self.stopped = True
            self.change.notify_all()


class Run:
    """The checks of some mutants, and what came of them."""

    def __init__(
        self, kit: Kit, mutants: Sequence[Mutant], listed: Dict[str, str], jobs: int, keep: Optional[str]
    ) -> None:
        self.kit = kit
        self.listed = listed
        self.jobs = jobs
        self.keep = keep
        self.count = len(mutants)
        alone = {mutant for mutant in mutants if not mutant.promised or mutant.name in listed}
        self.schedule = Schedule(mutants, alone)
        self.results: Dict[Mutant, str] = {}
        self.needless: List[Mutant] = []
        self.seconds: Dict[str, float] = {}
        self.lock = threading.Lock()
        self.said_at = time.monotonic()

    def work(self, folder: str) -> None:
        try:
            while (crate := self.schedule.take_crate()) is not None:
                if crate not in self.schedule.primed:
                    self.schedule.ready(crate, Primed(self.kit, crate, os.path.join(folder, "primed", crate)))
                with tempfile.TemporaryDirectory(dir=folder) as place:
                    self.check_crate(crate, Bench(self.schedule.primed[crate], place))
                self.schedule.leave_crate(crate)
        except BaseException:
            self.schedule.stop()
            raise

    def check_crate(self, crate: str, bench: Bench) -> None:
        while mutants := self.schedule.take_mutants(crate):
            began = time.monotonic()
            found = bench.judge(mutants)
            seconds = time.monotonic() - began
            of_each = told(mutants, found, bench.folder)
            self.schedule.give_back(crate, of_each)
            self.spend(crate, seconds)
            for mutant in of_each.decided:
                self.record(mutant, found, f"{seconds:.1f} s, {len(mutants)} in one check")
        found = bench.judge_as_it_is()
        if found.answer != PROVED:
            raise CheckerError(f"{found.said}\n{crate} does not pass as it is, after its mutants")

    def spend(self, crate: str, seconds: float) -> None:
        with self.lock:
            self.seconds[crate] = self.seconds.get(crate, 0) + seconds

    def record(self, mutant: Mutant, found: Verdict, check: str) -> None:
        result = SURVIVES if found.answer == PROVED else found.answer
        listed = mutant.name in self.listed
        with self.lock:
            if listed and result in (SURVIVES, NOT_TOLD):
                result = SAME
            elif listed:
                self.needless.append(mutant)
            self.results[mutant] = result
            print(f"mutant {len(self.results)} of {self.count}: {mutant.shown}: {result}", flush=True)
            if result == NOT_TOLD:
                print(found.said[-2000:], flush=True)
            if self.keep is not None:
                with open(os.path.join(self.keep, mutant.id), "w", encoding="utf-8") as file:
                    file.write(f"{mutant.name}\n{result}\n{check}\n{found.said}")
            self.say_time_left()

    def say_time_left(self) -> None:
        if time.monotonic() < self.said_at + 120 or len(self.results) == self.count:
            return
        self.said_at = time.monotonic()
        done = Counter(mutant.crate for mutant in self.results)
        mean = sum(self.seconds.values()) / len(self.results)
        left = sum(
            len(some) * (self.seconds[crate] / done[crate] if done[crate] else mean)
            for crate, some in self.schedule.left.items()
        )
        print(f"about {int(left / self.jobs / 60) + 1} minutes left", flush=True)

    def check_all(self) -> None:
        place = memory(self.jobs)
        with tempfile.TemporaryDirectory(prefix="mutants-", dir=place) as folder, ThreadPoolExecutor(self.jobs) as pool:
            workers = [pool.submit(self.work, folder) for _ in range(self.jobs)]
            try:
                for worker in workers:
                    worker.result()
            except BaseException:
                self.schedule.stop()
                raise


def table(results: Dict[Mutant, str], crates: Sequence[str]) -> str:
    """The results counted by kind and by crate."""
    rows = [(kind, [mutant for mutant in results if mutant.kind == kind]) for kind in KINDS]
    rows += [(crate, [mutant for mutant in results if mutant.crate == crate]) for crate in crates]
    rows.append(("all", list(results)))
    lines = [f"{'':14}{'tried':>8}" + "".join(f"{title:>12}" for title, _ in COLUMNS)]
    for title, some in rows:
        if some:
            counts = Counter(results[mutant] for mutant in some)
            cells = "".join(f"{counts[result]:>12}" for _, result in COLUMNS)
            lines.append(f"{title:14}{len(some):>8}{cells}")
    return "\n".join(lines)


def report(run: Run, crates: Sequence[str], minutes: float) -> int:
    print(f"\n{table(run.results, crates)}\n")
    for result, said in ((SURVIVES, "survives"), (NOT_TOLD, "is not told")):
        found = [mutant for mutant in run.results if run.results[mutant] == result]
        for mutant in sorted(found, key=lambda one: (one.path, one.line)):
            print(f"{said}: {mutant.path}:{mutant.line}\n    {mutant.name}")
    for mutant in run.needless:
        print(f"listed without need: {mutant.name}")
    counts = Counter(run.results.values())
    bad = counts[SURVIVES] + counts[NOT_TOLD]
    refused = counts[AT_A_FACT] + counts[BY_SHAPE]
    print(
        f"{refused} refused, {counts[BY_OUTPUT]} wrong by their output, {counts[SAME]} the same program,"
        f" {bad} survive or are not told; {minutes:.0f} minutes"
    )
    return 1 if bad else 0


def jobs_wanted() -> int:
    wanted = os.environ.get("MUTANTS_JOBS", "")
    if wanted and not (wanted.isdigit() and int(wanted) > 0):
        raise CheckerError("MUTANTS_JOBS is a number, 1 or more")
    return int(wanted) if wanted else min(os.cpu_count() or 1, 4)


def options(words: Sequence[str]) -> argparse.Namespace:
    parser = argparse.ArgumentParser(prog="kufandra mutants")
    parser.add_argument("count", nargs="?", type=int, metavar="COUNT")
    parser.add_argument("seed", nargs="?", type=int, default=1, metavar="SEED")
    parser.add_argument("--crate", action="append", default=[], metavar="NAME")
    parser.add_argument("--unpromised", action="store_true")
    parser.add_argument("--list", action="store_true")
    parser.add_argument("--keep", metavar="FOLDER")
    found = parser.parse_args(words)
    crates = catalogue.crate_names(ROOT)
    if found.count is not None and found.count < 1:
        parser.error("COUNT is 1 or more")
    for crate in found.crate:
        if crate not in crates:
            parser.error(f"there is no crate {crate}")
    found.crates = [crate for crate in crates if crate in found.crate or not found.crate]
    return found


def main(words: Sequence[str]) -> int:
    wanted = options(words)
    everything = catalogue.all_mutants(ROOT, catalogue.crate_names(ROOT))
    with open(LIST, encoding="utf-8") as file:
        listed = catalogue.read_list(file.read())
    catalogue.check_list(listed, everything)
    mutants = [mutant for mutant in everything if mutant.crate in wanted.crates]
    if wanted.unpromised:
        mutants = [mutant for mutant in mutants if not mutant.promised and mutant.crate in TESTS]
    if wanted.count is not None:
        mutants = catalogue.drawn(mutants, wanted.count, wanted.seed)
    if wanted.list:
        for mutant in mutants:
            print(mutant.name)
        return 0
    if wanted.keep is not None:
        os.makedirs(wanted.keep, exist_ok=True)
    kit = Kit(ROOT)
    print("proving the crates as they are", flush=True)
    kit.prove_all()
    run = Run(kit, mutants, listed, jobs_wanted(), wanted.keep)
    began = time.monotonic()
    run.check_all()
    return report(run, wanted.crates, (time.monotonic() - began) / 60)


if __name__ == "__main__":
    try:
        sys.exit(main(sys.argv[1:]))
    except KeyboardInterrupt:
        sys.exit(130)
    except (CheckerError, ListError, SourceError) as error:
        print(f"mutants: {error}", file=sys.stderr)
        sys.exit(1)
