"""The library of another machine: a C program is linked with it, gets all commands, and answers them; and the edges of its calls are tried."""

import hashlib
import os
import shutil
import struct
import subprocess

HERE = os.path.dirname(os.path.abspath(__file__))
TOP = os.path.dirname(HERE)
WAYS = {  # the compiler, what the library is called where it is loaded, and what runs a program
    "aarch64-linux-library": ("aarch64-linux-gnu-gcc", "libipg.so.1", ["qemu-aarch64", "-L", "/usr/aarch64-linux-gnu"]),
    "x86_64-windows-library": ("x86_64-w64-mingw32-gcc", "ipg.dll", ["wine"]),
}


def linked(target, source, library, folder):
    """A program of that source with the library: the words that run it."""
    compiler, name, runner = WAYS[target]
    shutil.copy(library, os.path.join(folder, name))
    made = os.path.join(folder, f"{os.path.basename(source)[:-2]}.exe")
    words = [compiler, "-O1", "-Wall", "-Wextra", "-I", os.path.join(TOP, "lib", "include"), source, name, f"-Wl,-rpath,{folder}", "-o", made]
    subprocess.run(words, cwd=folder, check=True)
    return [*runner, made]


def counted(data):
    return struct.pack("<Q", len(data)) + data


def packed(run, folder):
    """A command as the program reads it."""
    parts = [struct.pack("<Q", len(run["words"])), *(counted(word.encode()) for word in run["words"]), struct.pack("<Q", len(run["files"]))]
    for name in run["files"]:
        with open(os.path.join(folder, name), "rb") as file:
            parts += [counted(name.encode()), counted(file.read())]
    return b"".join(parts)


def answers(data):
    """Pairs of a status and a text."""
    at = 0
    while at + 16 <= len(data):
        status, size = struct.unpack_from("<QQ", data, at)
        yield status, data[at + 16 : at + 16 + size]
        at += 16 + size


def faults(target, library, folder, runs):
    """What differs."""
    source = os.path.join(HERE, "library_runs.c")
    with open(os.path.join(folder, "commands"), "wb") as file:
        file.writelines(packed(run, folder) for run in runs)
    with open(os.path.join(folder, "commands"), "rb") as file:
        done = subprocess.run(linked(target, source, library, folder), stdin=file, stdout=subprocess.PIPE, stderr=subprocess.DEVNULL, timeout=3600)
    got = list(answers(done.stdout))
    found = [] if len(got) == len(runs) else [f"{len(got)} answers, due {len(runs)}; status {done.returncode}"]
    for run, (status, text) in zip(runs, got):
        if (status, hashlib.sha256(text).hexdigest()) != (run["status"], run["sum"]):
            found.append(f"{run['words']}: status {status}, due {run['status']}; {len(text)} bytes, due {run['size']}")
    edges = linked(target, os.path.join(TOP, ".ci", "library_edges.c"), library, folder)
    done = subprocess.run(edges, stdin=subprocess.DEVNULL, stdout=subprocess.PIPE, stderr=subprocess.DEVNULL, timeout=600)
    return found if done.returncode == 0 else [*found, f"edges of a call: {done.stdout.decode()}"]
