"""The terminals of a lobby: kiosks that ask for a car, and cars that drive by their building's own times, as the reference client
does. Each is one connection to `liftd serve`, and speaks the lines of docs/integrating.md."""
import pathlib
import queue
import socket
import sys
import threading
import time

sys.path.insert(0, str(pathlib.Path(__file__).resolve().parent.parent / "clients"))
import driving

TICK, PATIENCE = 0.05, 10  # seconds between two looks at what goes on; and until all cars have said where they are after a start
REFUSALS = {
    "1": "This building has no such floor",
    "2": "You are at this floor",
    "3": "No car can take the call now; please try again",
}


class Clock:
    """Milliseconds of the building, so many times as fast as the wall's."""

    def __init__(self, speed):
        self.ms, self.seen, self.speed = 0.0, time.monotonic(), speed

    def now(self):
        return self.ms + (time.monotonic() - self.seen) * 1000 * self.speed

    def run_at(self, speed):
        self.ms, self.seen, self.speed = self.now(), time.monotonic(), speed


class Terminal(threading.Thread):
    """A seat at the group's port. `last` is the number of its last command that is in."""

    def __init__(self, group, seat, first_line):
        super().__init__(daemon=True)
        self.group, self.seat, self.first_line = group, seat, first_line
        self.lines, self.last, self.known_letter, self.exchange, self.is_unknown = None, 0, None, "", False

    def connect(self):
        """Connects until it is greeted: the server may be dead, or the seat still in use."""
        while True:
            while self.group.has_failed:  # it is started again
                time.sleep(TICK)
            try:
                if self.lines:
                    self.lines.close()
                with socket.create_connection(("127.0.0.1", self.group.port), timeout=90) as stream:
                    self.lines = stream.makefile("rw", newline="\n")
                greeting = self.say(self.first_line)
            except OSError:
                greeting = []
            if greeting[:1] == ["READY"]:
                self.last = int(greeting[1])
                self.known_letter = greeting[2] if len(greeting) > 2 else None
                self.group.disk.greeted(self.seat, self.last)
                return
            time.sleep(0.2)

    def say(self, line):
        self.lines.write(line + "\n")
        self.lines.flush()
        return self.lines.readline().split()

    def tell(self, line):
        """The words of the answer; none where the connection was lost, and then it is connected again."""
        try:
            answer = self.say(line)
        except OSError:
            answer = []
        if answer[:1] in (["CAR"], ["NO"], ["NEXT"], ["IDLE"]):
            self.exchange = f"{line} → {' '.join(answer)}"
            return answer
        if answer[:1] == ["SPENT"]:
            self.group.start_again(f"{self.first_line} is SPENT: it has asked as often as it may since the start")
        if answer[:1] == ["UNKNOWN"]:
            self.exchange, self.is_unknown = f"{line} → UNKNOWN", True
            self.group.disk_failed()
        time.sleep(0.2)
        self.connect()
        self.is_unknown = False
        return []


class Kiosk(Terminal):
    """Shows the letter of its last call. Whenever it had to connect anew it asks that call again, by its number."""

    def __init__(self, group, number, floor):
        super().__init__(group, 16 + number, f"KIOSK {number}")
        self.floor, self.wishes = floor, queue.Queue()
        self.call, self.letter, self.message, self.verdict = None, None, "", ""
        # after which end of a server its letter was shown, or read again; whether it was the same then, since the last end
        self.shown, self.reading = 0, None

    def run(self):
        self.connect()
        self.letter = self.known_letter
        while True:
            wish = self.wishes.get()
            if wish:
                self.ask(*wish)
            elif self.call and self.shown < self.group.ends:
                self.verdict = "asking again"
                self.ask_again()
                self.verdict = "same" if self.reading else "different"

    def ask(self, floor, party, passenger=None):
        """`passenger` is one of a morning, who is told the letter, or that there is none."""
        self.letter, self.message, self.verdict = None, "Please wait", ""
        number = self.last + 1
        word, argument = self.answer_to(number, floor, party)
        if word == "CAR":
            self.last, self.call, self.shown = number, (number, floor, party, argument), self.group.ends
            self.letter, self.message = argument, ""
            self.group.changed.set()
        else:
            self.message = REFUSALS.get(argument, f"Refused, reason {argument}")
        if passenger:
            self.group.morning.answered(passenger, argument if word == "CAR" else None)

    def answer_to(self, number, floor, party):
        """Asks until it is answered; its number stays the same, so the call is carried out once. After a start a refusal may be for want of
        cars that have said where they are: then it is asked a while longer."""
        was_heard, until = self.group.is_alive, 0
        while True:
            answer = self.tell(f"CALL {number} {floor} {party}")
            if not answer:
                self.ask_again()
                self.verdict, until = "in" if self.last == number else "not in" if was_heard else "", time.monotonic() + PATIENCE
            elif answer != ["NO", "3"] or time.monotonic() > until:
                return answer
            else:
                time.sleep(0.2)

    def ask_again(self):
        """The call whose letter was shown before the last end of a server, unless a later one is in."""
        while self.call and self.shown < self.group.ends and self.last <= self.call[0]:
            number, floor, party, letter = self.call
            ends, answer = self.group.ends, ["lost"] if self.last < number else self.tell(f"CALL {number} {floor} {party}")
            if answer:
                self.shown, self.reading = ends, answer == ["CAR", letter]

    def state(self):
        number, to, party, _ = self.call or (self.last, None, None, None)
        message = "UNKNOWN: the disk failed. The call is in, or it isn't" if self.is_unknown else self.message
        return {"floor": self.floor, "number": number, "to": to, "party": party, "letter": self.letter, "message": message,
                "verdict": self.verdict, "reading": self.reading, "exchange": self.exchange}


class Car(Terminal):
    """Drives as the reference client does, by the lobby's clock."""

    def __init__(self, group, letter, building, clock):
        car = ord(letter) - 65
        super().__init__(group, car, f"CAR {letter}")
        self.letter, self.clock = letter, clock
        self.serves = driving.serves_of(building, car)
        home = driving.home_of(building, self.serves)
        self.driver = driving.Driving(building, car, min(self.serves), home=home)
        self.told = (self.driver.floor, self.driver.dir, None)  # and in which start of the group
        self.is_lost = False

    def run(self):
        self.connect()
        steps, told = self.driver.steps(), None
        while True:
            self.driver.now = self.clock.now()
            step = steps.send(told)
            if isinstance(step, driving.At):
                told = self.wait_until(step.ms)
            elif isinstance(step, driving.Stop):
                told = self.stop(step)
            else:
                told = self.place_on_the_way(step) if step.patience else self.place(step)

    def wait_until(self, ms):
        while self.clock.now() < ms:
            if self.told[2] != self.group.starts and not self.driver.flight and self.group.is_alive:
                self.place(driving.Place(self.driver.floor, self.driver.dir))  # after a start it says again where it is
            time.sleep(min(TICK, max(0.001, (ms - self.clock.now()) / 1000 / self.clock.speed)))

    def place(self, step):
        while True:
            answer = self.tell(driving.line_of(step, 0)[0])
            if answer[:1] in (["NEXT"], ["IDLE"]):
                self.told = (step.floor, step.dir, self.group.starts)
                return driving.stop_of(answer)

    def place_on_the_way(self, step):
        """A car that flies waits for nobody: without a server it drives on to the stop that was named last."""
        if not self.group.is_alive:
            self.is_lost = True
        elif self.is_lost or self.told[2] != self.group.starts:
            self.is_lost = False
            self.connect()
        if self.is_lost:
            return driving.UNANSWERED
        try:
            answer = self.say(driving.line_of(step, 0)[0])
        except OSError:
            answer = []
        if answer[:1] not in (["NEXT"], ["IDLE"]):
            self.is_lost = True
            return driving.UNANSWERED
        self.exchange = f"PLACE {step.floor} {step.dir} → {' '.join(answer)}"
        self.told = (step.floor, step.dir, self.group.starts)
        return driving.stop_of(answer)

    def stop(self, step):
        """Reports a stop, again and again with its number, until it is answered."""
        line, number = driving.line_of(step, self.last)
        while (answer := self.tell(line))[:1] not in (["NEXT"], ["IDLE"]):
            pass
        self.last = max(self.last, number)
        self.told = (step.floor, step.dir, self.group.starts)
        self.group.stopped(self.letter, step, self.driver.opened)
        self.group.changed.set()
        return driving.stop_of(answer)

    def height(self):
        """Where it is now, in floors: it speeds up and slows down."""
        if not (flight := self.driver.flight):
            return self.driver.floor
        origin, since, target = flight
        part = min(1.0, (self.clock.now() - since) / max(1, self.driver.times[origin][target]))
        return origin + (target - origin) * part * part * (3 - 2 * part)

    def halts(self, rows):
        """Its stop list: ahead in its direction, then back, then ahead again for what lay behind it."""
        floor, direction, _ = self.told
        halts = set()
        for row in rows:
            way = "up" if row["to"] > row["from"] else "down"
            legs = [row["to"]] if row["aboard"] else [row["from"], row["to"]]
            is_ahead = legs[0] >= floor if direction == "up" else legs[0] <= floor
            sweep = 2 if way != direction else 1 if is_ahead else 3
            halts |= {(sweep, leg if way == "up" else -leg, leg, way) for leg in legs}
        return [halt[2:] for halt in sorted(halts)]

    def state(self, rows):
        own = [row for row in rows if row["car"] == self.letter]
        return {"letter": self.letter, "height": self.height(), "open": self.driver.is_open, "serves": self.serves,
                "halts": self.halts(own), "exchange": self.exchange}
