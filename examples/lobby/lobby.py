#!/usr/bin/env python3
"""A lobby in a browser: a group of lifts served by `liftd`, its kiosks as a page, and cars that drive.

Usage: examples/lobby/lobby.py [--liftd PROGRAM] [--building TEXT] [--image FILE] [--port N] [--speed N]

Makes a journal (a new one each time, unless --image names a file to keep), starts `liftd serve` on it, connects each
kiosk and each car of the building, and serves the page at 127.0.0.1. Ends at Ctrl-C.
"""
import argparse
import contextlib
import http.server
import json
import pathlib
import shutil
import signal
import socket
import subprocess
import sys
import tempfile
import threading
import time
import tomllib

sys.dont_write_bytecode = True
from disk import Disk
from morning import PATTERNS, Morning
from terminals import Car, Clock, Kiosk

HERE = pathlib.Path(__file__).resolve().parent
TOP = HERE.parent.parent
BUILT = TOP / "crates/liftd/out/liftd"
PAUSE, UNKNOWN = 2, 4  # seconds between the end of a server and its next start; and between a disk's failure and that end
PAGE = {"/": (HERE / "index.html", "text/html"), "/lobby.js": (HERE / "lobby.js", "text/javascript"), "/lobby.css": (HERE / "lobby.css", "text/css")}
PAGE |= {f"/{page}": (TOP / page, "text/plain") for page in ("README.md", "docs/integrating.md", "docs/formats.md", "docs/operating.md")}


def free_port():
    with socket.socket() as stream:
        stream.bind(("127.0.0.1", 0))
        return stream.getsockname()[1]


class Group(threading.Thread):
    """The server of one image, started again whenever it has ended, with its terminals."""

    def __init__(self, liftd, image, text, speed, disk):
        super().__init__(daemon=True)
        self.liftd, self.image, self.text, self.disk, self.port = liftd, image, text, disk, free_port()
        self.process, self.is_alive, self.is_over, self.has_failed, self.starts, self.ends, self.fault = None, False, False, False, 0, 0, ""
        self.rows, self.done, self.changed = [], 0, threading.Event()
        building = tomllib.loads(text.read_text())
        self.floors, self.clock = building["floors"], Clock(speed)
        self.kiosks = [Kiosk(self, number, floor) for number, floor in enumerate(building["kiosks"])]
        self.places = [car["places"] for car in building["cars"]]
        self.cars = [Car(self, chr(65 + number), building, self.clock) for number in range(len(building["cars"]))]
        self.morning = Morning(self, building)

    def begin(self):
        for thread in [self, threading.Thread(target=self.watch, daemon=True), *self.kiosks, *self.cars, self.morning]:
            thread.start()

    def end(self):
        self.is_over = True
        if self.process:
            self.process.kill()
            self.process.wait()

    def run(self):
        while not self.is_over:
            words = [self.liftd, "serve", self.image, self.text, "--port", str(self.port), "--sessions", "1000000"]
            self.process = self.started(words)
            if self.process.stdout.readline():
                self.starts, self.is_alive = self.starts + 1, True
                for kiosk in self.kiosks:
                    kiosk.wishes.put(None)
            self.fault = self.process.communicate()[1].strip()
            self.is_alive = self.has_failed = False
            for kiosk in self.kiosks:
                kiosk.reading = None
            self.ends += 1
            self.changed.set()
            time.sleep(PAUSE)

    def started(self, words):
        surroundings, stream = self.disk.below()
        with stream or contextlib.nullcontext():
            return subprocess.Popen(words, stdout=subprocess.PIPE, stderr=subprocess.PIPE, text=True, env=surroundings,
                                    pass_fds=[stream.fileno()] if stream else [])

    def watch(self):
        """Asks `liftd show` who waits and who rides, at first and whenever that has changed."""
        while True:
            self.changed.clear()
            shown = subprocess.run([self.liftd, "show", self.image, self.text], capture_output=True, text=True)
            if shown.returncode == 0:
                first, *rows = [line.split() for line in shown.stdout.splitlines()]
                self.done, self.rows = int(first[2]), [row_of(*row) for row in rows]
                self.changed.wait()
            else:
                time.sleep(0.1)  # a checkpoint may have overtaken it

    def start_again(self, why):
        """A terminal has asked as often as it may: only a new start of the server helps."""
        print(f"lobby: {why}; the server is started again", file=sys.stderr, flush=True)
        self.process.kill()

    def disk_failed(self):
        """All is answered UNKNOWN until a new start, which comes a little later, so that it is seen."""
        if not self.has_failed:
            self.has_failed = True
            threading.Timer(UNKNOWN, self.process.kill).start()

    def stopped(self, letter, stop, opened):
        self.morning.stopped(letter, stop, opened)

    def state(self):
        rows = self.rows
        return {"floors": self.floors, "alive": self.is_alive, "starts": self.starts, "process": self.process and self.process.pid,
                "failed": self.has_failed, "fault": self.fault, "disk": self.disk.state(), "speed": self.clock.speed, "done": self.done, "rows": rows,
                "kiosks": [kiosk.state() for kiosk in self.kiosks],
                "morning": self.morning.state(),
                "cars": [car.state(rows) | {"places": places} | self.morning.of_car(car.letter) for car, places in zip(self.cars, self.places)]}


def row_of(car, kiosk, number, start, to, status, party="x1"):
    return {"car": car, "kiosk": int(kiosk[1:]), "number": int(number), "from": int(start), "to": int(to),
            "aboard": status == "aboard", "party": int(party[1:])}


def page_of(group):
    """The handler of the page's requests."""

    class Page(http.server.BaseHTTPRequestHandler):
        protocol_version = "HTTP/1.1"

        def do_GET(self):
            if self.path == "/state":
                self.answer(200, "application/json", json.dumps(group.state()).encode())
            elif self.path in PAGE:
                name, kind = PAGE[self.path]
                self.answer(200, kind + "; charset=utf-8", name.read_bytes())
            else:
                self.answer(404, "text/plain", b"no such page\n")

        def do_POST(self):
            try:
                # (a page from elsewhere can't say that it sends JSON without being asked, but where its name is this machine's)
                if self.headers["Content-Type"] != "application/json":
                    raise ValueError("not JSON")
                if (self.headers["Host"] or "").partition(":")[0] not in ("127.0.0.1", "localhost"):
                    raise ValueError("not of this machine")
                said = json.loads(self.rfile.read(max(0, min(1000, int(self.headers["Content-Length"])))))
                carry_out(group, self.path, said)
                self.answer(202, "application/json", b"{}")
            except (KeyError, TypeError, ValueError, IndexError, OverflowError, AttributeError, RecursionError) as error:
                self.close_connection = True
                self.answer(400, "text/plain", f"{error}\n".encode())

        def answer(self, status, kind, body):
            self.send_response(status)
            self.send_header("Content-Type", kind)
            self.send_header("Content-Length", str(len(body)))
            self.send_header("Cache-Control", "no-store")
            self.end_headers()
            self.wfile.write(body)

        def log_message(self, *_):
            pass

    return Page


def carry_out(group, path, said):
    if path == "/call":
        kiosk, floor, party = int(said["kiosk"]), int(said["floor"]), int(said["party"])
        if not (0 <= kiosk < len(group.kiosks) and 0 <= floor <= 999 and 1 <= party <= 15):
            raise ValueError("no such kiosk, floor or party")
        group.kiosks[kiosk].wishes.put((floor, party))
    elif path == "/speed":
        group.clock.run_at(min(100.0, max(0.1, float(said["speed"]))))
    elif path == "/kill":
        group.process.kill()
    elif path == "/strike":
        group.disk.choose(said["how"], int(said["call"]))
    elif path == "/slow":
        group.disk.is_slow = bool(said["slow"])
    elif path == "/morning":
        pattern, rate = said["pattern"], float(said["rate"])
        if pattern not in (None, *PATTERNS) or not 0 < rate <= 120:
            raise ValueError("no such pattern or rate")
        group.morning.play(pattern, rate)
    else:
        raise ValueError("no such page")


def checked(*words):
    """Carries out a command of the program, which has said why where it refuses."""
    if status := subprocess.run(words, stdout=subprocess.DEVNULL).returncode:
        sys.exit(status)


def words():
    parser = argparse.ArgumentParser(description="A lobby in a browser: kiosks, cars, and a real group behind them.")
    parser.add_argument("--liftd", type=pathlib.Path, default=BUILT if BUILT.exists() else pathlib.Path(shutil.which("liftd") or BUILT))
    parser.add_argument("--building", type=pathlib.Path, default=TOP / "examples/demo.toml")
    parser.add_argument("--image", type=pathlib.Path, help="the journal to go on with; without it a new one, which is removed at the end")
    parser.add_argument("--port", type=int, default=8000, help="where the page is; 0 for one that is free")
    parser.add_argument("--speed", type=float, default=4, help="how many times as fast as real cars")
    return parser.parse_args()


def main():
    said = words()
    if not said.liftd.exists():
        sys.exit(f"lobby: there is no program {said.liftd} yet; (cd {TOP}/crates/liftd && rt run < stdin) builds it")
    signal.signal(signal.SIGTERM, lambda *_: sys.exit())
    # (a shell that starts it in the background has it ignore this)
    signal.signal(signal.SIGINT, signal.default_int_handler)
    with tempfile.TemporaryDirectory() as room:
        liftd, image = said.liftd.resolve(), said.image or pathlib.Path(room) / "lobby.image"
        if not image.exists():
            checked(liftd, "format", image, said.building)
        checked(liftd, "show", image, said.building)
        group = Group(liftd, image, said.building, said.speed, Disk(image, room))
        server = http.server.ThreadingHTTPServer(("127.0.0.1", said.port), page_of(group))
        try:
            group.begin()
            print(f"lobby: http://127.0.0.1:{server.server_port}/", flush=True)
            server.serve_forever()
        finally:
            group.end()


if __name__ == "__main__":
    try:
        main()
    except KeyboardInterrupt:
        pass
    except OSError as error:
        sys.exit(f"lobby: {error}")
