#!/usr/bin/env python3
"""A car that drives by its building's own times, and asks `liftd` where to.

Usage: car.py PORT LETTER BUILDING FLOOR up|down [IDLES [SPEED [HOME]]]     for example: car.py 4000 A group.toml 0 up

BUILDING is the file of the building's text, FLOOR and the direction where the car is. While it has nothing to do it waits at HOME,
the floor with the most kiosks where none is named. It ends once it has been told IDLE so often, where IDLES is above 0, and drives
SPEED times as fast as the text says. Its status is then 0; 1 where the group has no such car, or the car another building; 3 where
it is told SPENT.
"""
import select
import socket
import sys
import time
import tomllib

sys.dont_write_bytecode = True
import driving

ANSWER_S, AGAIN_S = 75, 1  # how long it waits for an answer, and between two tries


class Late(OSError):
    """No answer within the time that there was."""


class Connection:
    """What a car says to the group. The connection is made again where it is lost, and a command that is under way asked again."""

    def __init__(self, port, letter):
        self.port, self.letter, self.stream, self.last, self.owes = port, letter, None, 0, False

    def connect(self, until):
        self.close()
        self.stream = socket.create_connection(("127.0.0.1", self.port), timeout=ANSWER_S)
        self.say(f"CAR {self.letter}")
        greeting = self.hear(until)
        if greeting[0] == "BAD":
            sys.exit(f"car.py: the group has no car {self.letter}")
        if greeting[0] != "READY":
            self.close()  # BUSY or LATE: the seat is in use
            raise OSError
        self.last = int(greeting[1])

    def close(self):
        if self.stream:
            self.stream.close()
        self.stream, self.owes = None, False

    def say(self, line):
        self.stream.sendall(line.encode() + b"\n")
        self.owes, self.heard = True, b""

    def hear(self, until):
        """The words of the answer. One that doesn't come in time stays owed, and is heard before the next line is said."""
        while not self.heard.endswith(b"\n"):
            if not select.select([self.stream], [], [], max(0, until - time.monotonic()))[0]:
                raise Late
            piece = self.stream.recv(64)
            if not piece:
                raise OSError
            self.heard += piece
        self.owes = False
        words = self.heard.decode().split()
        if words[0] == "SPENT":
            print("car.py: SPENT: this car has asked as often as it may since liftd was started; it has to be started again", file=sys.stderr)
            sys.exit(3)
        return words

    def try_once(self, step, number, until):
        if not self.stream:
            self.connect(until)
        if self.owes:
            self.hear(until)
        self.say(driving.line_of(step, number - 1)[0])
        words = self.hear(until)
        if words[0] in ("NEXT", "IDLE"):
            self.last = max(self.last, number if isinstance(step, driving.Stop) else 0)
            return words
        if words[0] == "NO" and words[1] not in ("4", "5", "6"):
            sys.exit(f"car.py: {step} is refused, reason {words[1]}: is the building of the group another one?")
        self.close()  # UNKNOWN, LATE or a number that isn't the next: connect again, which tells the last one
        raise OSError

    def ask(self, step):
        """The stop that NEXT names, None for IDLE; UNANSWERED, where the step's patience is over."""
        patience = getattr(step, "patience", None)
        until = time.monotonic() + patience / 1000 if patience else None
        number = self.last + 1
        while True:
            try:
                return driving.stop_of(self.try_once(step, number, until or time.monotonic() + ANSWER_S))
            except OSError as fault:
                if not isinstance(fault, Late) or not until:
                    self.close()
                if until:
                    return driving.UNANSWERED
            time.sleep(AGAIN_S)
            if self.last > number:
                number = self.last + 1  # that number was another stop's


def main(port, letter, file, floor, dir, idles=0, speed=1.0, home=None):
    with open(file, "rb") as text:
        building = tomllib.load(text)
    car = ord(letter) - 65
    if not 0 <= car < len(building["cars"]):
        sys.exit(f"car.py: {file} has no car {letter}")
    if home is None:
        home = driving.home_of(building, driving.serves_of(building, car))
    driver = driving.Driving(building, car, floor, dir, home)
    connection, began = Connection(port, letter), time.monotonic()
    steps, told = driver.steps(), None
    while True:
        driver.now = (time.monotonic() - began) * 1000 * speed
        step = steps.send(told)
        if isinstance(step, driving.At):
            time.sleep(max(0, step.ms - driver.now) / 1000 / speed)
            told = None
            continue
        if isinstance(step, driving.Stop):
            print(f"stop {connection.last + 1}: floor {step.floor} {step.dir}", flush=True)
        told = connection.ask(step)
        if told is None and not driver.flight:
            idles -= 1
            if idles == 0:
                return


if __name__ == "__main__":
    if not 6 <= len(sys.argv) <= 9:
        sys.exit(__doc__)
    further = [kind(word) for kind, word in zip((int, float, int), sys.argv[6:])]
    main(int(sys.argv[1]), sys.argv[2], sys.argv[3], int(sys.argv[4]), sys.argv[5], *further)
