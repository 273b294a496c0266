"""The files of a folder by one grammar, on all processors: of each file the exit status, its name, and how many nodes its tree has or why it has none.

python3 corpus.py FORMAT FOLDER, with the package ../python on the path; FORMAT is one of `ipg.formats()`
"""

import concurrent.futures
import os
import sys

import ipg

# a worker's own, by its format
GRAMMARS = {}


def parsed(name, path):
    """What a worker tells of a file."""
    grammar = GRAMMARS.get(name) or GRAMMARS.setdefault(name, ipg.builtin(name))
    with open(path, "rb") as file:
        data = file.read()
    try:
        return 0, path, sum(1 for _ in grammar.parse(data).walk())
    except ipg.Error as error:
        return error.status, path, str(error)


def main(name, folder):
    paths = sorted(os.path.join(place, file) for place, _, files in os.walk(folder) for file in files)
    with concurrent.futures.ProcessPoolExecutor() as pool:
        for told in pool.map(parsed, [name] * len(paths), paths, chunksize=64):
            print(*told)


if __name__ == "__main__":
    main(*sys.argv[1:])
