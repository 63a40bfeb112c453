"""A morning in the lobby: passengers who come by a pattern, and how long they wait and travel, by the lobby's clock."""
import random
import threading
import time
from collections import deque

# the shares of those who come from the main floor, and of those who go there; the others go between other floors
PATTERNS = {"up": (1.0, 0.0), "lunch": (0.45, 0.45), "down": (0.0, 1.0), "inter": (0.0, 0.0)}
TICK, RETRY_MS, LOST_MS, SHOWN = 0.02, 20_000, 900_000, 200  # s between two looks; after how long a refused one asks again; of how many the means are


class Passenger:
    def __init__(self, come, start, to):
        self.come, self.start, self.to, self.dir = come, start, to, "up" if to > start else "down"
        self.car = self.opened = None


class Morning(threading.Thread):
    """Has passengers come while a pattern is played; `rate` is how many come in a minute of the lobby's clock."""

    def __init__(self, group, building):
        super().__init__(daemon=True)
        self.group, self.pattern, self.rate, self.lock = group, None, 6.0, threading.Lock()
        kiosks = building["kiosks"]
        self.main = max(sorted(set(kiosks)), key=kiosks.count)
        self.others = [floor for floor in range(building["floors"]) if floor != self.main]
        self.serves = [car.serves for car in group.cars]
        self.waiting, self.aboard, self.again = [], [], []
        self.came, self.refused, self.arrived = 0, 0, 0
        self.waits, self.ways = deque(maxlen=SHOWN), deque(maxlen=SHOWN)  # pairs of a car's letter and ms

    def play(self, pattern, rate):
        self.pattern, self.rate = pattern, rate

    def run(self):
        chance, after = random.Random(), None
        while True:
            now = self.group.clock.now()
            if self.pattern is None:
                after = None
            elif after is None or now >= after:
                if after is not None:
                    self.come(*self.way(chance), now)
                after = max(now, after or now) + chance.expovariate(1.0) / self.rate * 60_000
            with self.lock:
                # (whose car stopped while the kiosk was still being told has boarded unseen)
                self.waiting = [it for it in self.waiting if now - it.come < LOST_MS]
                due = [it for when, it in self.again if when <= now]
                self.again = [(when, it) for when, it in self.again if when > now]
            for passenger in due:
                self.ask(passenger)
            time.sleep(TICK)

    def way(self, chance):
        """From where to where the next one goes: from a floor with a kiosk to one to which a car goes from there."""
        drawn, (first, second) = chance.random(), PATTERNS[self.pattern]
        floors = sorted({kiosk.floor for kiosk in self.group.kiosks})
        elsewhere = [floor for floor in floors if floor != self.main]
        if drawn < first or not elsewhere:
            start, goals = self.main, self.others
        elif drawn < first + second:
            start, goals = chance.choice(elsewhere), [self.main]
        else:
            start, goals = chance.choice(elsewhere), self.others
        goals = [floor for floor in goals if floor != start and any({start, floor} <= set(serves) for serves in self.serves)]
        return start, chance.choice(goals or [self.main])

    def come(self, start, to, now):
        if start != to:
            self.came += 1
            self.ask(Passenger(now, start, to))

    def ask(self, passenger):
        """At the kiosk of his floor where fewest stand before him."""
        kiosks = [kiosk for kiosk in self.group.kiosks if kiosk.floor == passenger.start]
        min(kiosks, key=lambda kiosk: kiosk.wishes.qsize()).wishes.put((passenger.to, 1, passenger))

    def answered(self, passenger, letter):
        """What the kiosk was told: a car's letter, or None."""
        with self.lock:
            if letter is None:
                self.refused += 1
                self.again.append((self.group.clock.now() + RETRY_MS, passenger))
            else:
                passenger.car = letter
                self.waiting.append(passenger)

    def stopped(self, letter, stop, opened):
        """At a stop of a car passengers leave and board; its doors are open since then."""
        with self.lock:
            for it in [it for it in self.aboard if it.car == letter and it.to == stop.floor]:
                self.aboard.remove(it)
                self.ways.append((letter, opened - it.come))
                self.arrived += 1
            for it in [it for it in self.waiting if (it.car, it.start, it.dir) == (letter, stop.floor, stop.dir)]:
                self.waiting.remove(it)
                self.aboard.append(it)
                self.waits.append((letter, max(0, opened - it.come)))

    def means(self, letter=None):
        """Seconds of those who boarded and arrived last, of one car or of all."""
        told = {}
        with self.lock:
            for name, pairs in (("wait", self.waits), ("way", self.ways)):
                ms = [ms for car, ms in pairs if letter in (None, car)]
                told[name] = sum(ms) / len(ms) / 1000 if ms else None
        return told

    def of_car(self, letter):
        return self.means(letter)

    def state(self):
        return {"pattern": self.pattern, "rate": self.rate, "came": self.came, "arrived": self.arrived, "refused": self.refused,
                "waiting": len(self.waiting) + len(self.again), **self.means()}
