#!/usr/bin/env python3
"""Builds the archive of a static library over the libraries that `rt ci` left in crates/*/out, so that they need not be
proved once more, as `rt lib` would. The static library itself is proved.

    python3 archive.py CRATE ARCHIVE
"""

from __future__ import annotations

import os
import sys
import tempfile
from typing import Sequence

HERE = os.path.dirname(os.path.abspath(__file__))
ROOT = os.path.dirname(HERE)
sys.path.insert(0, HERE)

from checker import PROVED, CheckerError, Kit  # noqa: E402


def main(words: Sequence[str]) -> int:
    crate, archive = words
    kit = Kit(ROOT)
    if not kit.is_static(crate):
        raise CheckerError(f"{crate} is no static library")
    with tempfile.TemporaryDirectory() as folder:
        found = kit.archive(crate, os.path.join(folder, "incremental"), os.path.abspath(archive))
    print(found.said, end="")
    return 0 if found.answer == PROVED else 1


if __name__ == "__main__":
    if len(sys.argv) != 3:
        sys.exit("usage: archive.py CRATE ARCHIVE")
    try:
        sys.exit(main(sys.argv[1:]))
    except CheckerError as error:
        sys.exit(f"archive: {error}")
