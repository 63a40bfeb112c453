"""What the programs of the owner's kit share: their words, their errors of one line, and the plain reader of buildings and images."""
import argparse
import os
import pathlib
import stat
import sys

HERE = pathlib.Path(__file__).resolve().parent
if not (HERE / "plain_group.py").exists():
    sys.path.insert(0, str(HERE.parent / "tools/judge"))
import plain_group as plain

VERSION = "0.1.0"  # of liftd and its kit: that of the manual page
MOST_BYTES = 1_048_576  # of a building's file


def waiting_for_nobody(name, flags):
    """Opens a pipe too without waiting for its other side."""
    return os.open(name, flags | os.O_NONBLOCK)


class Told(Exception):
    """Why a program can't do what it is asked, in one line, and its status."""

    def __init__(self, line, status=2):
        super().__init__(line)
        self.status = status


class Words(argparse.ArgumentParser):
    """The words of a command, whose faults are one line."""

    def __init__(self, about, status=2, **more):
        super().__init__(description=about, formatter_class=argparse.RawDescriptionHelpFormatter, **more)
        self.add_argument("--version", action="version", version=f"%(prog)s of liftd {VERSION}")
        self.status = status

    def error(self, message):
        raise Told(f"{message}; --help tells more", self.status)


def run(main, status=2):
    """Ends with the status that `main` gives; what goes wrong is told in one line, with this status where it has none of its own."""
    name = pathlib.Path(sys.argv[0]).name
    try:
        told = main()
        sys.stdout.flush()
    except Told as fault:
        told = fault.status
        print(f"{name}: {fault}", file=sys.stderr)
    except BrokenPipeError:
        told = status
        os.dup2(os.open(os.devnull, os.O_WRONLY), sys.stdout.fileno())
    except KeyboardInterrupt:
        told = 130
    except Exception as fault:
        told = status
        print(f"{name}: {type(fault).__name__}: {fault}", file=sys.stderr)
    sys.exit(told)


def is_plain(file):
    return stat.S_ISREG(os.fstat(file.fileno()).st_mode)


def building_text(path):
    """The text of a building's file."""
    try:
        with open(path, "rb", opener=waiting_for_nobody) as file:
            if not is_plain(file):
                raise Told("is no plain file")
            told = file.read(MOST_BYTES + 1)
    except OSError as fault:
        raise Told(fault.strerror) from None
    if len(told) > MOST_BYTES:
        raise Told(f"has more than {MOST_BYTES} bytes")
    try:
        return told.decode()
    except UnicodeDecodeError as fault:
        raise Told(f"isn't UTF-8 at byte {fault.start}") from None


def count(number, name):
    return f"{number} {name}" if number == 1 else f"{number} {name}{'es' if name.endswith('ch') else 's'}"
