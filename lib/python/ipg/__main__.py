"""The command line over the library: `python3 -m ipg WORDS..` says what `ipg WORDS..` says, and `python3 -m ipg FILE` shows a file of a known format."""

from __future__ import annotations

import os
import sys
from collections.abc import Sequence

from . import Error, run, view


def files_of(words: Sequence[str]) -> dict[str, bytes]:
    """What stands in each file that a word names."""
    files = {}
    for word in words:
        if os.path.isfile(word):
            with open(word, "rb") as file:
                files[word] = file.read()
    return files


def shown(path: str) -> tuple[int, bytes]:
    """A file of a format that is known, beside its bytes."""
    try:
        return 0, view(path).encode()
    except Error as error:
        return error.status, f"{error}\n".encode()


def main(words: Sequence[str]) -> int:
    files = files_of(words)
    status, text = run(words, files)
    if status == 4 and len(words) == 1 and files:
        status, text = shown(words[0])
    sys.stdout.buffer.write(text)
    return status


if __name__ == "__main__":
    sys.exit(main(sys.argv[1:]))
