"""A file of 128,000 bytes whose tree by the ELF grammar would have 117,317,352 lines: 1,999 sections, each of which says that
the whole file is its symbols. `parse` has to end with status 7 and to write nothing, within 10 s and 600 MB; else this ends
with status 1.

  bomb.py [COMMAND]

COMMAND is the program, else the one that IPG names, else ./ipg. It gets no more than 8 GiB, whatever it asks for.
"""

import os
import resource
import subprocess
import sys
import tempfile
import time

import files

SECTIONS = 1999
STATUS, SECONDS, MEGABYTES = 7, 10, 600


def limited():
    resource.setrlimit(resource.RLIMIT_AS, (8 << 30, 8 << 30))


def run(command, folder):
    """The status, seconds, megabytes at the peak, and how many bytes were written."""
    bomb, told, text = (os.path.join(folder, name) for name in ("bomb", "told", "text"))
    with open(bomb, "wb") as file:
        file.write(files.bomb(SECTIONS))
    words = ["/usr/bin/time", "-f", "%M", "-o", told, command, "parse", "@elf", bomb]
    with open(text, "wb") as out:
        begun = time.monotonic()
        status = subprocess.run(words, stdout=out, preexec_fn=limited).returncode
        seconds = time.monotonic() - begun
    with open(told) as file:
        megabytes = int(file.read().split()[-1]) * 1024 / 1e6
    return status, seconds, megabytes, os.path.getsize(text)


def main():
    command = sys.argv[1] if len(sys.argv) > 1 else os.environ.get("IPG", "./ipg")
    with tempfile.TemporaryDirectory() as folder:
        status, seconds, megabytes, written = run(command, folder)
    print(f"bomb: status {status}, {seconds:.1f} s, {megabytes:.0f} MB, {written} bytes written")
    return 0 if status == STATUS and written == 0 and seconds <= SECONDS and megabytes <= MEGABYTES else 1


sys.exit(main())
