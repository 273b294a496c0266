"""The system's edges, the same for a target as for the kept program: a full disk, a closed pipe, a pipe that gives few bytes at a time while the
program is stopped and goes on, a file of 3 GB, a console, names that are long, words that aren't text, want of memory. On Windows a program of its
own (windows_edges.c) gives what this system can't."""

import fcntl
import os
import pty
import resource
import shutil
import signal
import struct
import subprocess
import termios
import threading
import time

HERE = os.path.dirname(os.path.abspath(__file__))


def ran(command, words, folder, **how):
    return subprocess.run([*command, *words], cwd=folder, stdin=subprocess.DEVNULL, stderr=subprocess.DEVNULL, timeout=600, **how)


def full_disk(command, folder):
    with open("/dev/full", "wb") as full:
        return ran(command, ["json", "@elf", "elf"], folder, stdout=full).returncode


def closed_pipe(command, folder):
    reader, writer = os.pipe()
    os.close(reader)
    try:
        return ran(command, ["json", "@elf", "elf"], folder, stdout=writer).returncode
    finally:
        os.close(writer)


def slow_pipe(command, folder):
    """A file that is a pipe, and comes a few bytes at a time; meanwhile the program is stopped and told to go on."""
    name = os.path.join(folder, "slow")
    os.mkfifo(name)
    with open(os.path.join(folder, "gif"), "rb") as file:
        data = file.read()
    child = subprocess.Popen([*command, "parse", "@gif", "slow"], cwd=folder, stdin=subprocess.DEVNULL, stdout=subprocess.PIPE)

    def feed():
        with open(name, "wb", buffering=0) as pipe:
            for at in range(0, len(data), 50):
                pipe.write(data[at : at + 50])
                child.send_signal(signal.SIGSTOP)
                child.send_signal(signal.SIGCONT)
                time.sleep(0.002)

    writer = threading.Thread(target=feed, daemon=True)
    writer.start()
    text, _ = child.communicate(timeout=60)
    os.unlink(name)
    return child.returncode, text


def large_file(command, folder):
    with open(os.path.join(folder, "large"), "wb") as file:
        file.truncate(3 << 30)
    done = ran(command, ["parse", "@gif", "large"], folder, stdout=subprocess.PIPE)
    os.unlink(os.path.join(folder, "large"))
    return done.returncode, done.stdout


def on_terminal(words, folder):
    """The status of a program on a terminal of 200 lines and 150 columns, and what it wrote there."""
    above, below = pty.openpty()
    fcntl.ioctl(below, termios.TIOCSWINSZ, struct.pack("HHHH", 200, 150, 0, 0))
    child = subprocess.Popen(words, cwd=folder, stdin=below, stdout=below, stderr=subprocess.DEVNULL, start_new_session=True)
    os.close(below)
    text = b""
    while True:
        try:
            piece = os.read(above, 1 << 16)
        except OSError:
            break
        if not piece:
            break
        text += piece
    os.close(above)
    return child.wait(timeout=60), text


def console(command, folder):
    return on_terminal([*command, "parse", "@gif", "gif"], folder)


def long_name(command, folder):
    place = "/".join(["a" * 60 + "\u00e9"] * 6)
    os.makedirs(os.path.join(folder, place), exist_ok=True)
    with open(os.path.join(folder, "gif"), "rb") as file, open(os.path.join(folder, place, "gif"), "wb") as other:
        other.write(file.read())
    done = ran(command, ["parse", "@gif", f"{place}/gif"], folder, stdout=subprocess.PIPE)
    return done.returncode, done.stdout


def folder_as_file(command, folder):
    done = ran(command, ["parse", "@gif", "."], folder, stdout=subprocess.PIPE)
    return done.returncode, done.stdout


def no_text(command, folder):
    done = ran([*(word.encode() for word in command)], [b"parse", b"@gif", b"\xff"], folder, stdout=subprocess.PIPE)
    return done.returncode, done.stdout


def little_memory(command, folder):
    """512 MiB of addresses are too few for what is asked."""
    def limit():
        resource.setrlimit(resource.RLIMIT_AS, (300 << 20, 300 << 20))

    done = ran(command, ["parse", "deep.ipg", "deep"], folder, stdout=subprocess.PIPE, preexec_fn=limit)
    return done.returncode, done.stdout


def standard_input(command, folder):
    with open(os.path.join(folder, "gif"), "rb") as file:
        words = [*command, "parse", "@gif", "-"]
        done = subprocess.run(words, cwd=folder, stdin=file, stdout=subprocess.PIPE, stderr=subprocess.DEVNULL, timeout=600)
    return done.returncode, done.stdout


def installed_formats(command, folder):
    """The grammar of a format by its name, and their list."""
    env = {**os.environ, "IPG_FORMATS": os.path.join(os.path.dirname(HERE), "formats")}
    done = [ran(command, words, folder, stdout=subprocess.PIPE, env=env) for words in (["parse", "@png", "png"], ["formats"])]
    return [(it.returncode, it.stdout) for it in done]


EDGES = {  # which targets have each
    full_disk: "linux windows node", closed_pipe: "linux windows node", slow_pipe: "linux node", large_file: "linux windows node",
    console: "linux node", long_name: "linux windows node", folder_as_file: "linux windows node", no_text: "linux", little_memory: "x86_64-linux",
    standard_input: "linux windows", installed_formats: "linux windows",
}  # fmt: skip


def windows_console(kept, start, folder):
    """A console shows signs beyond ASCII, of a file's name."""
    name = "Bild \u00fc\u4e2d\U0001f600.ipg"
    with open(os.path.join(folder, name), "w") as grammar:
        grammar.write('S -> "a" ;\n')
    words = ["explain", name, "gif"]
    due = ran([kept], words, folder, stdout=subprocess.PIPE)
    status, _ = on_terminal([*start("console"), *words], folder)
    return (due.returncode, due.stdout), (status, said(folder))


def windows_pipe(kept, start, folder):
    """A file that is a pipe, and comes fifty bytes at a time."""
    due = ran([kept], ["parse", "@gif", "gif"], folder, stdout=subprocess.PIPE)
    with open(os.path.join(folder, "gif"), "rb") as file:
        words = [*start("pipe"), "parse", "@gif", r"\\.\pipe\slow"]
        done = subprocess.run(words, cwd=folder, stdin=file, stderr=subprocess.DEVNULL, timeout=600)
    return (due.returncode, due.stdout), (done.returncode, said(folder))


def windows_no_text(kept, start, folder):
    """A word with half of a character."""
    due = ran([kept.encode()], [b"parse", b"@gif", b"\xff"], folder, stdout=subprocess.PIPE)
    done = ran(start("torn"), ["parse", "@gif"], folder)
    return (due.returncode, due.stdout), (done.returncode, said(folder))


def said(folder):
    with open(os.path.join(folder, "said"), "rb") as file:
        return file.read()


def windows_starter(command, folder):
    """What starts the program in a way of windows_edges.c; None where that can't be compiled."""
    compiler = shutil.which("x86_64-w64-mingw32-gcc")
    if compiler is None:
        return None
    source = os.path.join(HERE, "windows_edges.c")
    made = os.path.join(folder, "windows_edges.exe")
    subprocess.run([compiler, "-Wall", "-Wextra", "-Werror", "-O2", "-static", "-o", made, source], check=True)
    *runner, program = command
    return lambda how: [*runner, made, how, "Z:" + program.replace("/", "\\")]


def windows_faults(command, kept, folder):
    start = windows_starter(command, folder)
    if start is None:
        print("targets: x86_64-windows: a console, a slow pipe and torn words left out, for want of x86_64-w64-mingw32-gcc")
        return ["edges were left out"] if os.environ.get("CI_STRICT") == "1" else []
    edges = (windows_console, windows_pipe, windows_no_text)
    return [fault for edge in edges for fault in differs(edge.__name__, lambda edge=edge: edge(kept, start, folder))]


def differs(name, answers):
    """What differs between the two of these answers, in a list."""
    try:
        due, got = answers()
    except (OSError, subprocess.SubprocessError) as error:
        due, got = "an answer", str(error)
    return [] if due == got else [f"{name}: {str(got)[:150]}, due {str(due)[:150]}"]


def faults(target, command, kept, folder):
    """What differs."""
    found = windows_faults(command, kept, folder) if "windows" in target else []
    for edge, places in EDGES.items():
        if any(place in target for place in places.split()):
            found += differs(edge.__name__, lambda edge=edge: (edge([kept], folder), edge(command, folder)))
    return found
