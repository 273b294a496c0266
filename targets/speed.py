"""For bench/targets.sh: milliseconds and MiB of the same commands by each target and by the kept program. Of programs and of Node the time is a
processor's, so that others at work change it little; in browsers it is the clock's. Of WebAssembly the MiB are those of the module's memory, with
the room for a tree (512 MiB) that programs have too and touch in part."""

import contextlib
import json
import os
import resource
import shutil
import subprocess
import sys
import tempfile

import runs
import web

FILES = (("elf", 60000), ("pcap", 10000), ("gif", 20000), ("elf", 18000))
ROUNDS = 5


def spent():
    """Milliseconds of a processor that all children took which have ended."""
    told = resource.getrusage(resource.RUSAGE_CHILDREN)
    return (told.ru_utime + told.ru_stime) * 1000


def timed(words, folder):
    """Milliseconds of one run."""
    before = spent()
    done = subprocess.run(words, cwd=folder, stdout=subprocess.DEVNULL, stderr=subprocess.DEVNULL)
    if done.returncode:
        sys.exit(f"{words}: status {done.returncode}")
    return spent() - before


def peak(words, folder):
    """MiB. A child of this process would be told this process's own, so a smaller program starts it."""
    with tempfile.NamedTemporaryFile("r") as told:
        subprocess.run(["/usr/bin/time", "-f", "%M", "-o", told.name, *words], cwd=folder, stdout=subprocess.DEVNULL, stderr=subprocess.DEVNULL)
        return int(told.read().split()[-1]) / 1024


def native(programs, run, folder):
    """The least of each in turns, and its peak."""
    told = {name: [] for name in programs}
    for _ in range(ROUNDS):
        for name, command in programs.items():
            told[name].append(timed([*command, *run["words"]], folder))
    return {name: (min(told[name]), peak([*command, *run["words"]], folder)) for name, command in programs.items()}


def make(folder):
    found = []
    for kind, count in FILES:
        name = f"{kind}-{count}"
        maker = os.path.join(runs.TOP, "bench", "files.py")
        runs.write(folder, name, subprocess.run([sys.executable, maker, kind, str(count)], check=True, capture_output=True).stdout)
        found.append({"words": ["parse", f"@{kind}", name], "files": [name], "size": os.path.getsize(os.path.join(folder, name))})
    return found


def told_of(place, folder, commands):
    """Rows of figures: the target, the command, milliseconds, MiB."""
    programs = {"kept": [runs.KEPT]}
    for target in ("x86_64-linux-static", "x86_64-windows"):
        name, runner = runs.TARGETS[target]
        program = runs.program_of(place, name)
        if program and (not runner or shutil.which(runner[0])):
            programs[target] = [*runner, program]
    with runs.wine_room() if "x86_64-windows" in programs else contextlib.nullcontext():
        figures = [native(programs, run, folder) for run in commands]
    add_node(figures, runs.program_of(place, "ipg.wasm"), folder, commands)
    for level, name in (("-Os", "ipg.wasm"), ("-O3", "ipg-O3.wasm")):
        for browser in ("chromium", "firefox-esr"):
            add_web(figures, browser, level, runs.program_of(place, name), folder, commands)
    return figures


def add_web(figures, browser, level, module, folder, commands):
    """Rows of a browser, where it and the module are there."""
    if module and shutil.which(browser):
        add(figures, f"wasm64-{browser} {level}", web.ask(browser, "web_speed.mjs", module, folder, commands) or [])


def add_node(figures, module, folder, commands):
    """Rows of Node, of a processor's time."""
    if module and shutil.which("node"):
        words = [*runs.node_words(), os.path.join(runs.node_package(module, folder), "node_speed.mjs")]
        done = subprocess.run(words, cwd=folder, input=json.dumps(commands).encode(), stdout=subprocess.PIPE, check=True)
        add(figures, "wasm64-node -Os", json.loads(done.stdout))


def add(figures, name, said):
    for row, it in zip(figures, said):
        if "error" in it:
            sys.exit(it["error"])
        row[name] = (it["least"], it["memory"] / 2**20)
        row[f"{name}, with its start"] = (it["first"], it["memory"] / 2**20)


def main(words):
    place = words[0] if words else None
    with tempfile.TemporaryDirectory() as folder:
        commands = make(folder)
        for run, row in zip(commands, told_of(place, folder, commands)):
            print(f"{' '.join(run['words'][:2])}, {run['size']} bytes")
            for name, (took, memory) in row.items():
                print(f"  {name:40} {took:8.1f} ms {took / row['kept'][0]:6.2f} times {memory:8.1f} MiB {memory / row['kept'][1]:6.2f} times")


if __name__ == "__main__":
    main(sys.argv[1:])
