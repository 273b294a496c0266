"""Whether `.ci/wrong_bodies.py`, which proves the one function that an edit changes, answers as the gate does, which proves its crate.

  compare_edits.py LOG [CRATE..]     LOG is what `rt ci` said of the edits of must-fail/, or bench/edits.sh of all

Each edit that the log has an answer on is tried on its functions alone; and the same functions as they stand are proved by
the same command. A line for each difference, then how many there are; ends with status 1 where there is one. The libraries below must
have been proved and built in this checkout.
"""

import concurrent.futures
import os
import re
import subprocess
import sys

TOP = os.path.join(os.path.dirname(os.path.abspath(__file__)), "..")
sys.path.insert(0, os.path.join(TOP, ".ci"))

import wrong_bodies  # noqa: E402

ANSWER = re.compile(r"^rt: must-fail (\w+)/(\S+\.edit): (refused|NOT REFUSED)", re.M)


def path_of(crate, name):
    rooms = (f"crates/{crate}/{room}/{name}" for room in ("must-fail", "wrong-bodies", "more-edits"))
    return next(path for path in rooms if os.path.exists(path))


def answers_of(log, crates):
    """Whether the gate refuses each edit, by its path."""
    return {path_of(crate, name): answer == "refused" for crate, name, answer in ANSWER.findall(log) if not crates or crate in crates}


def is_proved(crates, edit):
    """Whether the functions that the edit changes are proved as they stand."""
    words = [f"{crates.kit}/bin/rattle", "check", *crates.words(edit.crate)]
    functions = edit.texts()[1]
    for function in functions:
        words += ["--only", function]
    said = subprocess.run(words, cwd=f"crates/{edit.crate}", stdin=subprocess.DEVNULL, capture_output=True, text=True, check=False)
    return said.returncode == 0 and re.search(rf"^only=(\d+) proved=\1$", said.stdout + said.stderr, re.M) is not None


def differences(crates, path, gate):
    edit = wrong_bodies.Edit(path)
    fault = wrong_bodies.refused(crates, edit)
    said = [] if (fault is None) == gate else [f"{path}: the gate {'refuses' if gate else 'accepts'} it; alone: {fault or 'refused'}"]
    return said + ([] if is_proved(crates, edit) else [f"{path}: {', '.join(edit.texts()[1])} isn't proved as it stands"])


def main():
    log, *names = sys.argv[1:]
    text = wrong_bodies.read(log)
    os.chdir(TOP)
    answers = answers_of(text, names)
    crates = wrong_bodies.Crates()
    with concurrent.futures.ThreadPoolExecutor(wrong_bodies.at_once()) as pool:
        said = [line for lines in pool.map(lambda item: differences(crates, *item), sorted(answers.items())) for line in lines]
    for line in said:
        print(line)
    tried = {path.split(os.sep)[1] for path in answers}
    print(f"{len(answers)} edits of {len(tried)} crates, {sum(answers.values())} of them refused by the gate; {len(said)} differences")
    return 1 if said else 0


if __name__ == "__main__":
    sys.exit(main())
