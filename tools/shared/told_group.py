"""What the terminals of a group were told, and whether an image still has it: kiosks, cars, and `liftd show` beside them.

Of tools/try/power-cuts, tools/try/failed-syncs, tools/try/real-disk and tools/try/one-owner.
"""
import os
import re
import shutil
import socket
import subprocess
import time
from collections import namedtuple

from tried import LIMIT, TOP, Wrong, first_line, make_image, serving

DEMO = TOP / "examples/demo.toml"
FLOORS, KIOSKS, CARS = 10, (0, 5), "AB"
ROW = re.compile(r"([A-P]) K(\d+) (\d+) (\d+) (\d+) (waiting|aboard)(?: x(\d+))?")


class Lost(Exception):
    """What was answered, and is gone."""


class Call(namedtuple("Call", "start to party car least most")):
    """A call that was told its letter. Between `least` and `most` of its car's stops were in before it."""

    def state(self, stops):
        """What the stops after it make of it: its passengers board at a stop of its direction, and leave at any at their floor."""
        now, direction = "waiting", "up" if self.to > self.start else "down"
        for stop in stops:
            if now == "waiting" and stop == (self.start, direction):
                now = "aboard"
            elif now == "aboard" and stop[0] == self.to:
                return "done"
        return now

    def states(self, stops):
        return {self.state(stops[before:]) for before in range(self.least, self.most + 1)}

    def row(self):
        return self.car, self.start, self.to, self.party


class Car:
    """What a car was answered: its stops, over all rounds of a group, and the one whose answer it awaits."""

    def __init__(self, letter):
        self.letter, self.stops, self.asked = letter, [], None

    def asks(self, stop):
        self.asked = stop

    def is_answered(self):
        self.stops.append(self.asked)
        self.asked = None

    def most(self):
        """How many stops may be in. (What it awaits is looked at first: it may be answered meanwhile.)"""
        return (self.asked is not None) + len(self.stops)

    def chains(self):
        """Its stops as far as they are known to be in, and as far as they may be."""
        return [self.stops, *([[*self.stops, self.asked]] if self.asked else [])]

    def greeted(self, words):
        last = number_in(self.letter, words, len(self.stops), self.most())
        if last > len(self.stops):
            self.is_answered()
        self.asked = None

    def run(self, port, floor):
        line = Line(port, f"CAR {self.letter}")
        if not line.greeting:
            return
        self.greeted(line.greeting)
        direction = "up"
        answer = line.tell(f"PLACE {floor} {direction}").split()
        while answer:
            if answer[0] == "NEXT":
                floor, direction = int(answer[1]), answer[2]
                self.asks((floor, direction))
                answer = line.tell(f"STOP {self.most()} {floor} {direction}").split()
                if answer[:1] in (["NEXT"], ["IDLE"]):
                    self.is_answered()
            elif answer[0] == "IDLE":
                time.sleep(0.001)
                answer = line.tell(f"PLACE {floor} {direction}").split()
            else:
                raise Wrong(f"{self.letter}: answered {' '.join(answer)}")


class Kiosk:
    """What a kiosk was answered: its last number over all rounds of a group, the calls of which it isn't certain that they have
    left, the last one that was told its letter, and the one that awaits it, with how many stops of each car were in before it."""

    def __init__(self, kiosk):
        self.kiosk, self.last, self.open, self.told, self.asked, self.least = kiosk, 0, {}, None, None, None

    def __str__(self):
        return f"K{self.kiosk}"

    def asks(self, to, party, cars):
        self.asked = KIOSKS[self.kiosk], to, party
        self.least = {car.letter: len(car.stops) for car in cars}
        return f"CALL {self.last + 1} {to} {party}"

    def is_told(self, letter, cars):
        self.last += 1
        most = next(car.most() for car in cars if car.letter == letter)
        self.open[self.last] = self.told = Call(*self.asked, letter, self.least[letter], most)
        self.asked = None

    def greeted(self, words, cars):
        """A call that awaited its letter may be in, and has it now; the last one that was told keeps its own."""
        last = number_in(self, words, self.last, self.last + (self.asked is not None))
        if last > self.last:
            self.is_told(words[2], cars)
        self.asked = None
        if self.told and words[2:] != [self.told.car]:
            raise Lost(f"{self}: call {self.last} was told {self.told.car}, and the greeting is {' '.join(words)}")

    def run(self, port, chance, cars):
        line = Line(port, f"KIOSK {self.kiosk}")
        if not line.greeting:
            return
        self.greeted(line.greeting, cars)
        if self.told:
            words = f"CALL {self.last} {self.told.to} {self.told.party}"
            again = line.tell(words).split()
            if again and again != ["CAR", self.told.car]:
                raise Lost(f"{self}: {words} was told {self.told.car}, and then {' '.join(again)}")
        while True:
            words = self.asks(chance.choice([floor for floor in range(FLOORS) if floor != KIOSKS[self.kiosk]]), chance.randint(1, 3), cars)
            answer = line.tell(words).split()
            if answer[:1] == ["CAR"]:
                self.is_told(answer[1], cars)
            elif answer == ["NO", "3"]:
                self.asked = None
                time.sleep(0.002)
            elif not answer:
                return
            else:
                raise Wrong(f"{self}: {words} was answered {' '.join(answer)}")

    def compare(self, rows, cars):
        """Takes its calls out of the rows of an image; what is certain to have left need not be looked at again."""
        for number, call in list(self.open.items()):
            *row, state = rows.pop((self.kiosk, number), (*call.row(), "done"))
            car = next(car for car in cars if car.letter == call.car)
            if tuple(row) != call.row():
                raise Lost(f"{self}: call {number} was told {call}, and {row} is open")
            if not any(state in call.states(stops) for stops in car.chains()):
                raise Lost(f"{self}: call {number} was told {call}, and after {len(car.stops)} stops of its car it is {state}")
            if call.states(car.stops) == {"done"}:
                del self.open[number]
        awaited = rows.pop((self.kiosk, self.last + 1), None)
        if awaited and awaited[1:4] != self.asked:
            raise Wrong(f"{self}: call {self.last + 1} is open, {awaited}, and {self.asked} was asked")


class Line:
    """A connection that tells a line and reads its answer; an empty answer is its end, and one that is cut off is none."""

    def __init__(self, port, first):
        self.greeting = []
        try:
            self.stream = socket.create_connection(("127.0.0.1", port), timeout=90)
            self.file = self.stream.makefile("rw", newline="\n")
        except OSError:
            return
        self.greeting = self.tell(first).split()

    def tell(self, line):
        try:
            self.file.write(line + "\n")
            self.file.flush()
            answer = self.file.readline()
        except OSError:
            return ""
        return answer if answer.endswith("\n") else ""


def number_in(who, words, least, most):
    """The number of a greeting, between the last one that was answered and the last one that was asked."""
    if words[:1] != ["READY"]:
        raise Wrong(f"{who}: greeted {' '.join(words) or 'with nothing'}")
    last = int(words[1])
    if last < least:
        raise Lost(f"{who}: number {least} was answered, and the greeting is {' '.join(words)}")
    if last > most:
        raise Wrong(f"{who}: number {most} is the last that was asked, and the greeting is {' '.join(words)}")
    return last


def compare(liftd, room, kiosks, cars):
    """What `liftd show` tells of a copy of the image, beside what was told."""
    shutil.copy(f"{room}/group.image", f"{room}/copy.image")
    ran = subprocess.run([liftd, "show", "copy.image", DEMO], cwd=room, capture_output=True, text=True, timeout=LIMIT)
    if (ran.returncode, ran.stderr) != (0, ""):
        raise Wrong(f"show ends with status {ran.returncode} and tells {ran.stderr!r}")
    first, *lines = ran.stdout.splitlines()
    rows = {}
    for line in lines:
        car, kiosk, number, start, to, state, party = ROW.fullmatch(line).groups()
        rows[int(kiosk), int(number)] = car, int(start), int(to), int(party or 1), state
    counted, least = sum(map(int, first.split()[1:])), sum(kiosk.last for kiosk in kiosks)
    for kiosk in kiosks:
        kiosk.compare(rows, cars)
    if rows:
        raise Wrong(f"open are calls that have left, or that nobody asked: {rows}")
    if counted < least:
        raise Lost(f"{least} calls were told their letter, and {counted} are open or done")
    if counted > least + sum(kiosk.asked is not None for kiosk in kiosks):
        raise Wrong(f"{least} calls were told their letter, and {counted} are open or done")


class Unknown(Exception):
    """A command was answered UNKNOWN: the device failed."""


class Group:
    """One group over group.image in a folder, whose terminals ask one after another, and what they were told."""

    def __init__(self, liftd, folder, chance):
        self.liftd, self.folder, self.chance, self.server = liftd, str(folder), chance, None
        self.kiosks, self.cars = [Kiosk(kiosk) for kiosk in range(len(KIOSKS))], [Car(letter) for letter in CARS]
        make_image(liftd, folder, "group.image", DEMO, "--half", "64")

    def start(self, **around):
        """The server's port, or what it said in place of one."""
        self.server, port, said = serving(self.liftd, "group.image", DEMO, cwd=self.folder, env=dict(os.environ, **around))
        return said or port

    def kill(self, has_failed=False):
        """What it has said on standard error: a kill leaves it no last word. Where its device has failed it says so behind the answer, so
        that is awaited. A group that was never started has said nothing."""
        if not self.server:
            return ""
        said = first_line(self.server, LIMIT, self.server.stderr) if has_failed else b""
        self.server.kill()
        return (said + self.server.communicate(timeout=LIMIT)[1]).decode()

    def connect(self, port):
        """All terminals connect, and each kiosk asks again what it was told last."""
        self.lines = {}
        for car in self.cars:
            self.lines[car] = line = Line(port, f"CAR {car.letter}")
            car.greeted(line.greeting)
        for kiosk in self.kiosks:
            self.lines[kiosk] = line = Line(port, f"KIOSK {kiosk.kiosk}")
            kiosk.greeted(line.greeting, self.cars)
            if kiosk.told:
                words = f"CALL {kiosk.last} {kiosk.told.to} {kiosk.told.party}"
                again = self.tell(kiosk, words)
                if again != ["CAR", kiosk.told.car]:
                    raise Lost(f"{kiosk}: {words} was told {kiosk.told.car}, and then {' '.join(again)}")

    def tell(self, terminal, words):
        answer = self.lines[terminal].tell(words).split()
        if answer == ["UNKNOWN"]:
            raise Unknown
        if not answer:
            raise Wrong(f"{words}: no answer")
        return answer

    def drive(self, car):
        """The car goes to its next stop, if it has one."""
        answer = self.tell(car, f"PLACE {self.chance.randrange(FLOORS)} up")
        if answer[0] == "NEXT":
            car.asks((int(answer[1]), answer[2]))
            if self.tell(car, f"STOP {car.most()} {answer[1]} {answer[2]}")[0] not in ("NEXT", "IDLE"):
                raise Wrong(f"{car.letter}: a stop was refused")
            car.is_answered()

    def call(self, kiosk):
        floors = [floor for floor in range(FLOORS) if floor != KIOSKS[kiosk.kiosk]]
        answer = self.tell(kiosk, kiosk.asks(self.chance.choice(floors), self.chance.randint(1, 2), self.cars))
        if answer[0] == "CAR":
            kiosk.is_told(answer[1], self.cars)
        elif answer == ["NO", "3"]:
            kiosk.asked = None
        else:
            raise Wrong(f"{kiosk}: answered {' '.join(answer)}")

    def work(self, port, calls, midway=None):
        """Whether all calls were asked, and nothing was answered UNKNOWN. Half of them are asked before `midway` is done."""
        try:
            self.connect(port)
            for car in self.cars:
                self.drive(car)
            for at in range(calls):
                if midway and at == calls // 2:
                    midway()
                self.call(self.kiosks[at % len(self.kiosks)])
                self.drive(self.cars[at % len(self.cars)])
            return True
        except Unknown:
            return False

    def letters(self):
        return sum(kiosk.last for kiosk in self.kiosks)
