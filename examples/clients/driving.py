"""How a car drives and what it says to `liftd` meanwhile, without a clock and without a connection.

`car.py` gives it both, the lobby in a browser a clock that can be hurried, and `liftd-traffic` a simulated one: so all three
drive alike, and what is measured is what runs. `Driving.steps` yields one step after another, and is sent what came of it:

    At(ms)                       nothing is to be done before that moment
    Place(floor, dir, patience)  ask `PLACE`; the stop that NEXT names, or None for IDLE. Where no answer has come after
                                 `patience` ms, UNANSWERED, and the car drives on; where patience is None it waits for one
    Stop(floor, dir)             ask `STOP` with the next number, until it is answered; the same

Before each it is told the time in `now`. Times are milliseconds.
"""
from typing import NamedTuple

LEAD_MS = 100  # it asks this long before it has to brake or to pass: the time that an answer may take
IDLE_MS = 1000  # between two asks of a car that stands idle


class At(NamedTuple):
    ms: float


class Place(NamedTuple):
    floor: int
    dir: str
    patience: float | None = None


class Stop(NamedTuple):
    floor: int
    dir: str


UNANSWERED = "unanswered"


def stop_of(words):
    """The stop that an answer names; None for IDLE."""
    return (int(words[1]), words[2]) if words[0] == "NEXT" else None


def line_of(step, last):
    """What a car says for a step, and the number of the command; `last` is the last one that is in."""
    if isinstance(step, Place):
        return f"PLACE {step.floor} {step.dir}", 0
    return f"STOP {last + 1} {step.floor} {step.dir}", last + 1


def home_of(building, serves):
    """Where a car waits that has nothing to do: the floor with the most kiosks of those that it serves, the lowest of several."""
    return max(sorted(serves), key=building["kiosks"].count)


def serves_of(building, car):
    """The floors that a car of a building's text serves, cars counted from 0."""
    return sorted(set(building["cars"][car].get("serves", range(building["floors"]))))


class Driving:
    """A car of a building, given as the table of its text. `home` is where it waits while it is idle; None: where it is."""

    def __init__(self, building, car, floor, dir="up", home=None):
        self.times, self.door_ms, self.serves = building["flight"], building["door_ms"], serves_of(building, car)
        self.floor, self.dir, self.home = floor, dir, home
        self.now = 0.0
        self.flight = None  # while it flies: from which floor, since when, and to which floor as it is now
        self.is_open, self.opened = False, 0.0  # its doors, and since when

    def opened_at(self, floor):
        """When its doors opened that are open here."""
        return self.opened

    def open_ms(self):
        """How long its doors are open at the stop where it stands."""
        return self.door_ms

    def braking_ms(self, floor):
        """How long before it stands at this floor it has to brake: half the shortest flight there, which is all speeding up and braking."""
        return min(row[floor] for row in self.times if row[floor]) / 2

    def steps(self):
        stop = yield Place(self.floor, self.dir)
        while True:
            if stop is None:
                stop = yield from self.wait()
            elif stop[0] == self.floor:
                stop = yield from self.exchange(stop)
            else:
                stop = yield from self.fly(stop)

    def wait(self):
        """It has nothing to do: it drives home, and once there asks again and again."""
        if self.home not in (None, self.floor):
            return (yield from self.fly(None))
        yield At(self.now + IDLE_MS)
        return (yield Place(self.floor, self.dir))

    def exchange(self, stop):
        """Its doors open, and passengers leave and board. Before they close it reports the stop, and where the next one is at the same
        floor it reports that one too, with its doors still open."""
        self.is_open, self.opened = True, self.now
        yield At(self.now + self.open_ms())
        while stop and stop[0] == self.floor:
            self.dir = stop[1]
            stop = yield Stop(self.floor, self.dir)
        self.is_open = False
        return stop

    def fly(self, stop):
        """It flies towards a stop, or home where it has none, and gives the next stop as it is once it stands. At each floor where it can
        still stop it asks whether it is to. Without an answer in time it does as it was told last."""
        origin, since = self.floor, self.now
        goal = stop[0] if stop else self.home
        way = 1 if goal > origin else -1
        self.dir = "up" if way == 1 else "down"
        for floor in [it for it in self.serves[::way] if (it - origin) * way > 0]:
            self.flight = (origin, since, goal)
            # as soon as it is the next floor at which it can stop, and once more just before it has to brake for it or to pass
            for moment in (since, since + self.times[origin][floor] - self.braking_ms(floor) - LEAD_MS):
                yield At(moment)
                stop = self.told((yield Place(floor, self.dir, LEAD_MS)), stop)
                goal = stop[0] if stop else goal if self.home is None else self.home
            if (goal - floor) * way <= 0:
                break
        self.flight = (origin, since, floor)
        yield At(since + self.times[origin][floor])
        self.floor, self.flight = floor, None
        # as it stands, before it shows a direction or opens
        return self.told((yield Place(floor, self.dir, LEAD_MS)), stop)

    def told(self, answer, before):
        """The next stop after an answer, or where none came in time."""
        return before if answer == UNANSWERED else answer
