"""Runs the checker on a copy of a crate in a folder, as `rt must-fail` does, or builds its program, as `rt run` does, and
says what it answers."""

from __future__ import annotations

import os
import re
import shutil
import signal
import subprocess
from dataclasses import dataclass
from typing import List, Optional

# What a check may take of a processor's time. A check of an unchanged crate takes at most 30 seconds.
SECONDS = 180

# A folder whose files are kept in memory, and what the files of one worker take there at most.
MEMORY = "/dev/shm"
ROOM = 512 << 20

PROVED = "proved"
AT_A_FACT = "refused"
BY_SHAPE = "refused by the proof's shape"
NO_PROGRAM = "not a program"
NOT_TOLD = "not told"

# What the checker says of a program, of a proof that is written and of one that it makes itself, each with its place.
FRONT_END = re.compile(r"^(\S+\.rt:\d+:\d+): error\[[a-z0-9-]+\]: ", re.MULTILINE)
PROOF_ERROR = re.compile(r"^(\S+:\d+:\d+): error: (?:`([^`]*)`: )?(.*(?:\n  .*)*)", re.MULTILINE)
UNPROVED = re.compile(r"^note: (\S+): it is not proved that ", re.MULTILINE)
# An error that only follows from another.
FOLLOWS = re.compile(
    r"was not admitted \(it has holes or undetermined implicits, or was rejected\)"
    r"|declarations? that depends? on `[^`]*`, which was rejected"
)
# An error at what the proof expects of the code: a goal, a field of what is known at a place, a local of a loop.
SHAPE = re.compile(
    r"has no `[^`]*`|has no field `|is not in scope|projects from a record, but this has type"
    r"|this pattern needs a function \(or path\) type"
)


class CheckerError(Exception):
    """The checker cannot be used here, or does not prove what it has to."""


@dataclass(frozen=True)
class Verdict:
    answer: str
    said: str


def verdict(status: int, said: str) -> Verdict:
    """What a run of the checker tells, from its exit status and all that it wrote."""
    proved = re.search(r"^logic=proved ", said, re.MULTILINE) is not None
    refused = re.search(r"^logic=not-proved$", said, re.MULTILINE) is not None
    if status == 0 and proved and not refused:
        return Verdict(PROVED, said)
    if status == 1 and refused and not proved:
        return Verdict(AT_A_FACT if facts(said) else BY_SHAPE, said)
    if status == 1 and not proved and not refused and FRONT_END.search(said):
        return Verdict(NO_PROGRAM, said)
    return Verdict(NOT_TOLD, said)


def facts(said: str) -> List[str]:
    """The places where some need is refused for what it says. A proof's last line, `F-spec`, only puts the needs
    together."""
    return UNPROVED.findall(said) + [
        place
        for place, declaration, error in PROOF_ERROR.findall(said)
        if not declaration.endswith("-spec") and not FOLLOWS.search(error) and not SHAPE.search(error)
    ]


def memory(jobs: int) -> Optional[str]:
    """A folder in memory that has room for so many workers, if there is one and no other is asked for. Each check
    writes thousands of files and removes them."""
    if "TMPDIR" in os.environ or not os.access(MEMORY, os.W_OK):
        return None
    found = os.statvfs(MEMORY)
    return MEMORY if found.f_bavail * found.f_frsize >= jobs * ROOM else None


class Kit:
    """The kit behind the command `rt`, and a repository whose libraries are built."""

    def __init__(self, root: str) -> None:
        rt = shutil.which("rt")
        if rt is None:
            raise CheckerError("the Rattle kit is not installed: there is no command 'rt'")
        self.root = root
        self.home = os.path.dirname(os.path.dirname(os.path.realpath(rt)))
        self.tools = os.path.join(self.home, "toolchain")
        self.rlibs = os.path.join(self.home, "rlibs")

    def prove_all(self) -> None:
        words = ["rt", "all", "check"]
        ended = subprocess.run(words, cwd=self.root, capture_output=True, text=True, errors="replace")
        if ended.returncode != 0:
            raise CheckerError(f"{ended.stdout}{ended.stderr}the crates are not proved as they are")

    def dependencies(self, crate: str) -> List[str]:
        with open(os.path.join(self.root, "crates.txt"), encoding="utf-8") as file:
            for line in file:
                name, colon, rest = line.split("#")[0].partition(":")
                if colon and name.split()[:1] == [crate]:
                    return rest.split()
        raise CheckerError(f"crates.txt does not list {crate}")

    def is_ours(self, name: str) -> bool:
        return os.path.isdir(os.path.join(self.root, "crates", name, "src"))

    def below(self, crate: str) -> List[str]:
        """The repository's libraries below a crate, each once."""
        found: List[str] = []
        for name in filter(self.is_ours, self.dependencies(crate)):
            found += [one for one in (*self.below(name), name) if one not in found]
        return found

    def library(self, crate: str) -> str:
        return os.path.join(self.root, "crates", crate, "out", "rlib", f"{crate}.rlib")

    def is_program(self, crate: str) -> bool:
        return os.path.isfile(os.path.join(self.root, "crates", crate, "src", "main.rt"))

    def words(self, verb: str, crate: str, incremental: str) -> List[str]:
        """The command that `rt` runs in a crate's folder, over an incremental folder."""
        found = [os.path.join(self.home, "bin", "rattle"), verb, "--crate-name", crate]
        found += [os.path.join("src", "main.rt" if self.is_program(crate) else "lib.rt")]
        for name in dict.fromkeys((*self.dependencies(crate), "std")):
            found += ["--extern", f"{name}={self.library(name) if self.is_ours(name) else f'{self.rlibs}/{name}.rlib'}"]
        for folder in (self.rlibs, *(os.path.dirname(self.library(name)) for name in self.below(crate))):
            found += ["-L", f"dependency={folder}"]
        found += ["--antt-project", f"{self.home}/rattle/logic/antt-project.json"]
        found += ["--logic-built", f"{self.home}/logic_built", "--jobs", "1", "--links", f"{crate}="]
        if self.is_static(crate):
            found += ["--crate-type", "staticlib"]
        return found + ["--incremental", incremental]

    def is_static(self, crate: str) -> bool:
        with open(os.path.join(self.root, "crates.txt"), encoding="utf-8") as file:
            return any(line.partition(":")[0].split() == [crate, "staticlib"] for line in file)

    def check(self, crate: str, folder: str, incremental: str) -> Verdict:
        return asked(self.words("check", crate, incremental), folder, os.path.dirname(incremental))

    def compiled(self, path: str) -> List[str]:
        return ["--toolchain", self.tools, "--backend", "llvm", "-o", path]

    def archive(self, crate: str, incremental: str, path: str) -> Verdict:
        """The checker's verdict on a static library as it is, whose archive is written where it is proved."""
        words = self.words("build", crate, incremental) + self.compiled(path)
        folder = os.path.join(self.root, "crates", crate)
        return asked(words, folder, os.path.dirname(incremental))

    def build(self, crate: str, folder: str, incremental: str, program: str) -> Verdict:
        """The checker's verdict on a program, which is also compiled and linked where it is proved."""
        words = self.words("build", crate, incremental) + self.compiled(f"{program}.o")
        found = asked(words, folder, os.path.dirname(incremental))
        if found.answer != PROVED:
            return found
        link = [os.path.join(self.home, "bin", "rattle-link"), "--target", "x86_64-unknown-linux-gnu"]
        link += ["--toolchain", self.tools, "-o", program, f"{program}.o"]
        link += [os.path.join(self.home, "c", name) for name in ("libos_c.a", "liblibc_c.a")]
        ended = subprocess.run(link, stdin=subprocess.DEVNULL, stdout=subprocess.PIPE, stderr=subprocess.STDOUT)
        said = found.said + ended.stdout.decode("utf-8", "replace")
        return Verdict(PROVED if ended.returncode == 0 else NOT_TOLD, said)


def asked(words: List[str], folder: str, room: str) -> Verdict:
    """What the checker answers to a command in a crate's folder. What it writes only for itself stands in another while it
    runs."""
    limited = ["sh", "-c", 'ulimit -t "$0" && exec "$@"', str(SECONDS)]
    try:
        ended = subprocess.run(
            limited + words,
            cwd=folder,
            env={**os.environ, "TMPDIR": room},
            stdin=subprocess.DEVNULL,
            stdout=subprocess.PIPE,
            stderr=subprocess.STDOUT,
            timeout=20 * SECONDS,
        )
    except subprocess.TimeoutExpired:
        return Verdict(NOT_TOLD, "no answer")
    said = ended.stdout.decode("utf-8", "replace")
    if ended.returncode in (-signal.SIGXCPU, -signal.SIGKILL):
        return Verdict(NOT_TOLD, f"{said}no answer in {SECONDS} seconds of a processor's time")
    return verdict(ended.returncode, said)
