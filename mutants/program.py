"""Builds a program and runs it as the gate does: by `rt ci` on its stored input, and by its test in
`./kufandra test`. What it then does otherwise is told."""

from __future__ import annotations

import os
import shutil
import subprocess
import tempfile
from typing import Dict, List, Sequence

from checker import PROVED, Kit, Verdict

BY_OUTPUT = "wrong by its output"

# What a run may take of a processor's time, and write in blocks of 512 bytes. No program takes more than one second or
# writes more than 5,000 blocks.
SECONDS = 60
BLOCKS = 100_000

# The test of `./kufandra test` that runs a built program: the words before the program's path.
TESTS: Dict[str, List[str]] = {
    "scenarios": ["tests/run_files"],
    "consolidate": ["tests/run_program"],
    "compose": ["tests/run_texts"],
    "piezometer": ["tests/run_readings"],
    "long_division": ["tests/run_division"],
}


def limited(words: Sequence[str], seconds: int) -> List[str]:
    """A command within the limits. Root runs a program as nobody, as `rt` does."""
    drop = ["setpriv", "--reuid=65534", "--regid=65534", "--clear-groups", "--no-new-privs"]
    found = ["sh", "-c", f'ulimit -t {seconds} && ulimit -f {BLOCKS} && exec "$@"', "sh"]
    return found + (drop if os.geteuid() == 0 else []) + list(words)


def stored(crate: str, part: str) -> bytes:
    """A file of a crate's folder; one that is not there counts as empty."""
    path = os.path.join(crate, part)
    if not os.path.isfile(path):
        return b""
    with open(path, "rb") as file:
        return file.read()


def first_difference(one: bytes, other: bytes) -> int:
    return next((at for at, (a, b) in enumerate(zip(one, other)) if a != b), min(len(one), len(other)))


def fault_of_run(loader: Sequence[str], program: str, crate: str, seconds: int = SECONDS) -> str:
    """What a program does otherwise than a crate's files `stdin`, `args`, `data` and `stdout` say, if anything. The
    loader is the words before the program's path."""
    with tempfile.TemporaryDirectory() as room:
        os.chmod(room, 0o711)
        own, data = os.path.join(room, "program"), os.path.join(room, "data")
        shutil.copy(program, own)
        os.chmod(own, 0o755)
        if os.path.isdir(os.path.join(crate, "data")):
            shutil.copytree(os.path.join(crate, "data"), data)
        else:
            os.mkdir(data)
        words = list(loader) + [own] + stored(crate, "args").decode().splitlines()
        with open(os.path.join(room, "wrote"), "w+b") as wrote, open(os.path.join(room, "said"), "w+b") as said:
            with tempfile.TemporaryFile() as given:
                given.write(stored(crate, "stdin"))
                given.seek(0)
                try:
                    ended = subprocess.run(
                        limited(words, seconds), cwd=data, stdin=given, stdout=wrote, stderr=said, timeout=20 * seconds
                    )
                except subprocess.TimeoutExpired:
                    return "the program did not end"
            wrote.seek(0)
            said.seek(0)
            if ended.returncode != 0:
                spoken = said.read().decode("utf-8", "replace").strip()
                return f"the program ended with status {ended.returncode}: {spoken}"
            one, other = wrote.read(), stored(crate, "stdout")
    if one == other:
        return ""
    at = first_difference(one, other)
    return f"the program wrote {len(one)} bytes, stored are {len(other)}, from byte {at}: {one[at : at + 40]!r}"


def fault_of_test(root: str, words: Sequence[str], program: str) -> str:
    """What a test says that fails on a program; nothing if it passes."""
    try:
        ended = subprocess.run(
            [os.path.join(root, words[0]), *words[1:], program],
            stdin=subprocess.DEVNULL,
            stdout=subprocess.PIPE,
            stderr=subprocess.STDOUT,
            timeout=20 * SECONDS,
        )
    except subprocess.TimeoutExpired:
        return f"{words[0]} did not end"
    return "" if ended.returncode == 0 else f"{words[0]}: {ended.stdout.decode('utf-8', 'replace').strip()}"


def judged(kit: Kit, crate: str, folder: str, incremental: str) -> Verdict:
    """The checker's verdict on a program in a folder; where it is proved, also whether the gate would pass it."""
    with tempfile.TemporaryDirectory() as place:
        built = os.path.join(place, crate)
        found = kit.build(crate, folder, incremental, built)
        if found.answer != PROVED:
            return found
        fault = fault_of_run([], built, os.path.join(kit.root, "crates", crate))
        fault = fault or fault_of_test(kit.root, TESTS[crate], built)
    return Verdict(BY_OUTPUT, f"{found.said}{fault}\n") if fault else found
