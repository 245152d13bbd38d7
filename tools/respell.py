#!/usr/bin/env python3
"""Brings the repository's own definitions, fields and lemmas to snake case, after the kit's script has turned the rest.

usage: python3 tools/respell.py     once, at the top of the repository

A word in camel case that begins with a small letter is written in snake case. A dash stays between two names of functions, as
in `length-overlaid`, and becomes an underscore between other words. Names that the checker makes, and those of the source, stay.
Last comes a list of places where two names would fall together; nothing is written then.
"""

import collections
import glob
import os
import re
import sys

WORD = re.compile(r"[^\s(){}\[\];,.«»⌜⌝\"`]+")
CAMEL = re.compile(r"^[a-z][\w']*$")
DECLARED = re.compile(r"^\s*(?:(?:abbrev|unfoldable|pub|ruleset)\s+)*([^\s(){}\[\];,.:]+)\s*:(?!:)")
BINDER = re.compile(r"[({]([^(){}:]+?)\s:\s")
# Words of the library that lemmas are named after.
LIBRARY = set("length get_or set take drop replicate map append zip reverse sum min max add mul sub div mod".split())
# What the kit's script left between two spellings, and names that it took for the library's.
MENDED = {
    "tabulate_get_d": "tabulate-get_or",
    "moved_in": "moved_in_lem",
    "load_set": "load_set_lem",
    "is-layer": "is_a_layer",
    "on-curve": "is_on_curve",
    "top-level": "top_level_kept",
    "bottom-level": "bottom_level_kept",
    "compressibility-sound": "compressibility_is_sound",
    "conductivity-sound": "conductivity_is_sound",
}
# Lemmas that would have their function's name.
LEMMAS = set(
    "burdens-in burden-at layer-height face-number face-holds opened-record fields-answer longest-step elements-in flows-in "
    "excess-at resistance-at step-taken opening-by with-events replay-opened last-abscissa last-stress table-at new-height "
    "job-length opening-load lowest-water highest-water is-on steady-flows header-length".split()
)
# Labels and locals that share a word in one file, and mean no other thing there.
APART = {
    "crates/laws/proofs/SoundHeader.antt": None,
    "crates/rules/specs/Job.antt": None,
    "crates/rules/specs/Record.antt": None,
}


def files(kinds):
    found = []
    for kind in kinds:
        found += glob.glob(f"crates/*/{kind}", recursive=True)
    return sorted(found)


def code_of(line):
    """A line of antt without its comment."""
    if line.lstrip().startswith("--"):
        return ""
    return line.split(" -- ")[0]


def snake(word):
    word = word.replace("getD", "get_or")
    word = re.sub(r"([a-z0-9])([A-Z])", r"\1_\2", word)
    word = re.sub(r"([a-z])([ℤℕ])", r"\1_\2", word)
    return word.lower() if not re.search("[ℤℕ]", word) else re.sub(r"[A-Z]", lambda m: m.group().lower(), word)


def dashes(word, names):
    parts = word.split("-")
    out = parts[0]
    chunk = parts[0]
    for i in range(1, len(parts)):
        right = any("_".join(parts[i : i + n]) in names for n in range(1, len(parts) - i + 1))
        if chunk in names and right:
            out += "-" + parts[i]
            chunk = parts[i]
        else:
            out += "_" + parts[i]
            chunk += "_" + parts[i]
    return out


def main():
    shared = [f for f in files(["specs/**/*.antt", "proofs/*.antt"])]
    declared, functions, fields = set(), set(), set()
    for path in shared:
        for line in open(path, encoding="utf-8"):
            line = code_of(line)
            m = DECLARED.match(line)
            if m:
                declared.add(m.group(1))
                if "/specs/" in path and re.match(r"(abbrev |unfoldable )pub .*→", line):
                    functions.add(snake(m.group(1)).replace("-", "_"))
                if "/specs/" in path and line.startswith("  pub "):
                    fields.add(m.group(1))
            for m in BINDER.finditer(line):
                declared.update(w for w in m.group(1).split() if WORD.fullmatch(w))
    names = functions - {snake(w).replace("-", "_") for w in fields} | LIBRARY
    new = dict(MENDED)
    for path in files(["specs/**/*.antt", "proofs/**/*.antt"]):
        for line in open(path, encoding="utf-8"):
            for word in WORD.findall(code_of(line)):
                if word.startswith("get_d_"):
                    new.setdefault(word, "get_or-" + word[len("get_d_") :])
                elif CAMEL.match(word) and re.search(r"[a-z0-9][A-Zℤℕ]", word):
                    new.setdefault(word, snake(word))
                elif word in LEMMAS:
                    new[word] = word.replace("-", "_") + "_lem"
                elif word in declared and re.search(r"[\w']-[\w']", word) and not re.match(r"[A-Z]", word):
                    new.setdefault(word, dashes(snake(word), set() if word in fields else names))
    new = {a: b for a, b in new.items() if a != b}

    clashes = []
    texts = {}
    for path in files(["specs/**/*.antt", "proofs/**/*.antt", "src/**/*.rt"]):
        with open(path, encoding="utf-8") as f:
            text = f.read()
        rust = path.endswith(".rt")
        came = collections.defaultdict(set)
        out = []
        for line in text.splitlines(keepends=True):
            comment = line.lstrip().startswith("//" if rust else "--")

            def turn(m):
                word = m.group()
                to = new.get(word, word)
                before = m.string[m.start() - 1 : m.start()]
                field = before == "." or re.match(r"\s+=\s", m.string[m.end() :]) and not m.string.lstrip().startswith(word)
                called = rust and re.match(r"\(", m.string[m.end() :])
                if not comment and not field and not called:
                    came[to].add(word)
                return to

            if comment:
                line = re.sub(r"`[^`]*`", lambda m: WORD.sub(turn, m.group()), line)
            elif rust and '"' in line:
                pass
            else:
                line = WORD.sub(turn, line)
            out.append(line)
        for to, words in came.items():
            apart = APART.get(path, set())
            if len(words) > 1 and any(w in new for w in words) and apart is not None and to not in apart:
                clashes.append(f"{path}: {to}: {' '.join(sorted(words))}")
        texts[path] = "".join(out)
    if clashes and "--look" not in sys.argv:
        print("\n".join(clashes))
        print(f"{len(clashes)} places where names fall together: nothing is written")
        raise SystemExit(1)
    print("\n".join(clashes))
    for path, text in texts.items():
        with open(path, "w", encoding="utf-8") as f:
            f.write(text)
    print(f"{len(new)} names in {len(texts)} files")


if __name__ == "__main__":
    os.chdir(os.path.dirname(os.path.dirname(os.path.abspath(__file__))))
    main()
