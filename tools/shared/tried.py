"""What the tools in Python share: their words, the program that is tried, servers and ports, the tally of cases, libraries that are
loaded before the C library, and other tools' functions."""
import contextlib
import functools
import importlib.machinery
import importlib.util
import os
import pathlib
import random
import re
import resource
import select
import signal
import socket
import subprocess
import sys
import time

TOP = pathlib.Path(__file__).resolve().parent.parent.parent
BUILT = TOP / "crates/liftd/out/liftd"
TRIES = TOP / "crates/lift_cases/out/lift_cases"
sys.path.append(str(TOP / "tools/judge"))

LIMIT, SERVER_LIMIT = 60, 30  # s: for a program's end, and for a server's first line, or its end behind its last connection
MOST_PORTS = 20  # that are tried, where other programs take them
NO_WORD = "no word"  # what a server said that ended and said nothing


class Wrong(Exception):
    """What came otherwise than it has to."""


def given_words(most=1):
    """The words that a tool without options was given, n at the most. `--help` prints the tool's head, and so does a word too many."""
    given, head = sys.argv[1:], sys.modules["__main__"].__doc__.strip()
    if given in (["--help"], ["-h"]):
        print(head)
        sys.exit()
    if len(given) > most:
        sys.exit(head)
    return given


def program(path=BUILT):
    """Its whole path, or the tool's end in a line where it isn't there."""
    path = os.path.realpath(path)
    if not os.access(path, os.X_OK):
        sys.exit(f"{pathlib.Path(sys.argv[0]).name}: there is no program {path}: build it, (cd crates/liftd && rt run < stdin), or name one")
    return path


def relay():
    """The program that carries out scripts as `liftd replay` does, by the word `script`, but drives both parts of a clerk by hand; none where it isn't
    built."""
    return str(TRIES) if os.access(TRIES, os.X_OK) else None


def in_relay(count):
    """What a last line tells of the scripts that were carried out by both parts too."""
    return f"{count} scripts by both parts of a clerk too" if relay() else f"none by both parts of a clerk, without {TRIES.relative_to(TOP)}"


def loaded(path):
    """The functions of a program in Python, by its path below the top, or by its whole path."""
    path = TOP / path
    loader = importlib.machinery.SourceFileLoader(re.sub(r"\W", "_", path.name), str(path))
    module = importlib.util.module_from_spec(importlib.util.spec_from_loader(loader.name, loader))
    loader.exec_module(module)
    return module


@functools.cache
def preloaded(name, folder):
    """The path of a library of tools/preloaded, compiled into the folder."""
    path = f"{folder}/{name}.so"
    subprocess.run(["cc", "-O2", "-shared", "-fPIC", "-o", path, str(TOP / f"tools/preloaded/{name}.c"), "-ldl"], check=True)
    return path


def free_port(given=set()):
    """A port that is free, another one each time, and not one of those that the system gives to connections, so that none of them takes it
    meanwhile."""
    while True:
        port = random.randrange(10000, 32768)
        with socket.socket() as free, contextlib.suppress(OSError):
            free.bind(("127.0.0.1", port))
            if port not in given:
                given.add(port)
                return port


def limit_files(most):
    """In a process that is to become a program: the system refuses what it writes beyond this number of bytes, where one is given."""
    if most is not None:
        signal.signal(signal.SIGXFSZ, signal.SIG_IGN)
        resource.setrlimit(resource.RLIMIT_FSIZE, (most, most))


def make_image(liftd, folder, image, building, *words):
    """Has `liftd format` make an image, with further words."""
    try:
        ran = subprocess.run([liftd, "format", image, building, *words], cwd=folder, capture_output=True, text=True, timeout=LIMIT)
    except subprocess.TimeoutExpired:
        raise Wrong(f"format of {image} doesn't end within {LIMIT} s") from None
    if ran.returncode != 0:
        raise Wrong(f"format of {image} ends with status {ran.returncode} and tells {ran.stderr!r}")


def first_line(process, limit=SERVER_LIMIT, stream=None):
    """What a program has written, to its standard output or another stream, when its first line ends, or the stream, or the limit is over,
    in seconds."""
    until, told, stream = time.monotonic() + limit, b"", stream or process.stdout
    while not told.endswith(b"\n") and select.select([stream], [], [], max(0, until - time.monotonic()))[0]:
        piece = os.read(stream.fileno(), 4096)
        if not piece:
            break
        told += piece
    return told


def serving(liftd, image, building, sessions=1000000, words=(), limit=SERVER_LIMIT, **around):
    """`liftd serve`, with further words, at a free port: its process, its port, and what it said in place of serving, nothing where it
    serves. A port that another program took meanwhile is no refusal: the next one is tried. A start that takes longer than the limit, in
    seconds, is ended."""
    for _ in range(MOST_PORTS):
        port, until = free_port(), time.monotonic() + limit
        told = [liftd, "serve", image, building, "--port", str(port), "--sessions", str(sessions), *words]
        server = subprocess.Popen(told, stdout=subprocess.PIPE, stderr=subprocess.PIPE, **around)
        first = first_line(server, limit)
        said = "" if first == f"serving {port}\n".encode() else said_instead(server, first, until)
        if said != "liftd: network\n":
            break
    return server, port, said


def said_instead(server, first, until):
    """What a server says that has another first line, or none: so it has to end."""
    try:
        said = server.communicate(timeout=max(1, until - time.monotonic()))[1].decode(errors="replace")
    except subprocess.TimeoutExpired:
        ended(server)
        return f"{first!r}, and it goes on"
    return said or (f"{first!r}, and its end" if first else NO_WORD)


def served(*words, **around):
    """A server that serves, and its port; what is given is that of `serving`."""
    server, port, said = serving(*words, **around)
    if said:
        raise Wrong(f"the start was refused: {said.strip()}")
    return server, port


def ended(server):
    """Kills a server, if it still runs."""
    server.kill()
    with contextlib.suppress(subprocess.TimeoutExpired):
        server.communicate(timeout=LIMIT)


class Tally:
    """What was tried with a program in a folder, and how much of it came otherwise than it has to."""

    def __init__(self, liftd, room):
        self.liftd, self.room, self.tried, self.differ = liftd, room, 0, 0
        self.is_told = False  # whether the present case came otherwise than its file says

    def compare(self, name, wanted, came, is_wrong=False):
        if wanted != came:
            self.is_told = True
            if not is_wrong:
                self.differ += 1
                print(f"{name}: differs\n  wanted: {wanted!r}\n  came:   {came!r}", flush=True)

    def know(self, name, table, keys):
        """Compares a table's keys with those that are known: what another one says would be compared with nothing."""
        self.compare(f"{name}, its keys that nobody knows", set(), set(table) - keys)

    def carefully(self, name, carry_out):
        """Carries out what may find no connection, no file, or no end in time, which then came otherwise than it has to."""
        try:
            carry_out()
        except (Wrong, OSError, subprocess.SubprocessError) as fault:
            self.compare(name, "no fault", str(fault))

    def case(self, name, is_wrong, carry_out):
        """Carries out a case, which has to try something. One that is wrong on purpose has to differ."""
        self.is_told, before = False, self.tried
        self.carefully(name, carry_out)
        if self.tried == before and not self.is_told:
            self.compare(name, "something that is tried", "nothing")
        if is_wrong and not self.is_told:
            self.differ += 1
            print(f"{name}: comes out, though it is wrong on purpose", flush=True)
