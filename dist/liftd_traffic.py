"""Traffic in a building, in simulated time: passengers who come by a pattern, cars that drive as the client of examples/clients does,
and who says where they go: `liftd serve` itself, or conventional control with two buttons at each landing.

Nothing here has a clock: time goes from one event to the next, and each line to `liftd` waits for its answer. So a run is the same
wherever it is run, and takes as long as the lines take. Times are milliseconds.
"""
import heapq
import json
import os
import pathlib
import random
import select
import shlex
import socket
import subprocess
import sys
import tempfile

HERE = pathlib.Path(__file__).resolve().parent
if not (HERE / "driving.py").exists():
    sys.path[:0] = [str(HERE.parent / "examples/clients"), str(HERE.parent / "examples")]
import driving
import proxy

PATTERNS = {"up": (1.0, 0.0), "lunch": (0.45, 0.45), "down": (0.0, 1.0), "inter": (0.0, 0.0)}  # from the lobby, to the lobby; else between the others
WAIT_MS = 1000  # between two asks of a kiosk for a passenger who has a ticket
JAM_MS = 90_000  # a mean wait in the last quarter that is longer is called a jam
AFTER = 3  # the drain lasts so many times as long as what was measured, at most
START_S, ANSWER_S = 60, 75  # how long a server may take to start, and to answer
SHM = pathlib.Path("/dev/shm")


class Failed(Exception):
    """What a group or a car said or did that can't be gone on with."""


# Passengers


class Passenger:
    __slots__ = ("come", "start", "to", "dir", "car", "given", "there", "opened", "left", "first_given", "refused", "behind", "full", "passed", "is_measured")

    def __init__(self, come, start, to, is_measured):
        self.come, self.start, self.to, self.is_measured = come, start, to, is_measured
        self.dir = "up" if to > start else "down"
        self.car = self.given = self.there = self.opened = self.left = self.first_given = None
        self.refused = self.behind = self.full = 0
        self.passed = False


def reachable(building):
    """For each floor with a kiosk the floors to which some car goes from there."""
    serves = [driving.serves_of(building, car) for car in range(len(building["cars"]))]
    return {start: sorted({to for floors in serves if start in floors for to in floors} - {start}) for start in sorted(set(building["kiosks"]))}


def lobby_of(building):
    return max(sorted(set(building["kiosks"])), key=building["kiosks"].count)


def routes(building, lobby):
    """Of each kind of way those that can be asked for: from the lobby, to it, and between the others."""
    to = reachable(building)
    others = [floor for floor in to if floor != lobby]
    between = [(floor, goals) for floor in others if (goals := [it for it in to[floor] if it != lobby])]
    return [(lobby, to[lobby])], [(floor, [lobby]) for floor in others if lobby in to[floor]], between


def passengers(building, pattern, rate, seed, name):
    """Who comes, one after another without an end: `rate` in persons a second at a moment in ms."""
    chance = random.Random(f"{seed} {pattern} {name}")
    kinds = routes(building, lobby_of(building))
    first, second = PATTERNS[pattern]
    at = 0.0
    while True:
        now = rate(at)
        at += chance.expovariate(1.0) / now * 1000 if now else 1000
        drawn = chance.random()
        ways = kinds[0] if drawn < first else kinds[1] if drawn < first + second else kinds[2]
        start, goals = ways[int(chance.random() * len(ways))]
        yield round(at), start, goals[int(chance.random() * len(goals))]


# Who says where the cars go


class Served:
    """A group that `liftd` serves on a new journal, each terminal over a connection of its own. No line is asked before the answer to
    the last one has come. What is known isn't asked for: what a car is told that says the same place again, and was given no call
    since; and that a call is refused, while none of the cars that could take it has stopped since none of them had a place."""

    name = "liftd"

    def __init__(self, liftd, building, policy):
        self.building, self.lines, self.last = building, {}, {}
        self.serves = [set(driving.serves_of(building, car)) for car in range(len(building["cars"]))]
        self.at, self.next, self.full = {}, {}, set()  # where each car said last that it is, its next stop where that is known; who had no place
        self.room = tempfile.TemporaryDirectory(prefix="liftd-traffic-", dir=SHM if os.access(SHM, os.W_OK) else None)
        folder = pathlib.Path(self.room.name)
        (folder / "group.toml").write_text(text_of(building))
        self.run(liftd, "format", "group.image", "group.toml", "--half", "1024")
        terminals = [f"CAR {letter(car)}" for car in range(len(building["cars"]))] + [f"KIOSK {it}" for it in range(len(building["kiosks"]))]
        self.process, port = self.serve(liftd, policy)
        try:
            for terminal in terminals:
                self.connect(terminal, port)
        except OSError as fault:
            self.end()
            raise Failed(f"{liftd}: {fault}") from None

    def run(self, *words):
        ran = subprocess.run(words, cwd=self.room.name, capture_output=True, text=True, timeout=60)
        if ran.returncode:
            raise Failed(f"{words[0]} {words[1]}: {ran.stderr.strip()}")

    def serve(self, liftd, policy):
        for _ in range(20):
            with socket.socket() as free:
                free.bind(("127.0.0.1", 0))
                port = free.getsockname()[1]
            words = [liftd, "serve", "group.image", "group.toml", "--port", str(port), "--sessions", "1000000", "--policy", policy]
            process = subprocess.Popen(words, cwd=self.room.name, stdout=subprocess.PIPE, stderr=subprocess.PIPE, text=True)
            if not select.select([process.stdout], [], [], START_S)[0]:
                process.kill()
            if process.stdout.readline():
                return process, port
            said = process.communicate()[1].strip()
            if said != "liftd: network":
                break
        raise Failed(f"{liftd} serve: {said}")

    def connect(self, terminal, port):
        stream = socket.create_connection(("127.0.0.1", port), timeout=ANSWER_S)
        stream.setsockopt(socket.IPPROTO_TCP, socket.TCP_NODELAY, 1)
        self.lines[terminal] = stream
        greeting = self.say(terminal, terminal)
        if greeting != ["READY", "0"]:
            raise Failed(f"{terminal} is greeted {' '.join(greeting)!r}")

    def say(self, terminal, line):
        stream, told = self.lines[terminal], b""
        try:
            stream.sendall(line.encode() + b"\n")
            while not told.endswith(b"\n"):
                if not (piece := stream.recv(64)):
                    raise Failed(f"{terminal} has lost its connection at {line!r}")
                told += piece
        except OSError as fault:
            raise Failed(f"{terminal} has no answer to {line!r}: {fault}") from None
        return told.decode().split()

    def place(self, car, floor, dir):
        if car in self.next and self.at[car] == (floor, dir):
            return self.next[car]
        return self.told(car, floor, dir, f"PLACE {floor} {dir}")

    def stop(self, car, floor, dir):
        self.full.discard(car)
        number = self.last[car] = self.last.get(car, 0) + 1
        return self.told(car, floor, dir, f"STOP {number} {floor} {dir}")

    def told(self, car, floor, dir, line):
        words = self.say(f"CAR {letter(car)}", line)
        if words[0] not in ("NEXT", "IDLE"):
            raise Failed(f"car {letter(car)} is answered {' '.join(words)!r}")
        self.at[car], self.next[car] = (floor, dir), driving.stop_of(words)
        return self.next[car]

    def call(self, kiosk, floor):
        """The car that a call is given; None where none can take it now."""
        able = {car for car, floors in enumerate(self.serves) if {self.building["kiosks"][kiosk], floor} <= floors}
        if able <= self.full:
            return None
        terminal = f"KIOSK {kiosk}"
        number = self.last.get(terminal, 0) + 1
        words = self.say(terminal, f"CALL {number} {floor}")
        if words == ["NO", "3"]:
            self.full |= able & self.at.keys()
            return None
        if words[0] != "CAR":
            raise Failed(f"kiosk {kiosk} is answered {' '.join(words)!r}")
        self.last[terminal] = number
        car = ord(words[1]) - 65
        self.next.pop(car, None)
        return car

    def end(self):
        for stream in self.lines.values():
            stream.close()
        self.process.kill()
        self.process.communicate()
        self.room.cleanup()


def letter(car):
    return chr(65 + car)


def text_of(building):
    """The text of a building, without what `liftd` ignores."""
    lines = [f"{key} = {json.dumps(building[key])}" for key in ("floors", "door_ms", "kiosks", "flight")]
    for car in building["cars"]:
        lines += ["[[cars]]", *(f"{key} = {json.dumps(car[key])}" for key in ("places", "serves") if key in car)]
    return "\n".join(lines) + "\n"


class Conventional:
    """Two buttons at each landing, and the nearest car: each pressed button is the car's that suits it best as the cars stand now.
    A car that comes near it in its direction suits it by one floor more than an idle one or one that comes in the other direction,
    and one that goes away suits it least; a full one doesn't. A car answers its buttons and its passengers in floor order."""

    name = "conventional"

    def __init__(self, building):
        self.building, self.pressed, self.at = building, {}, {}
        self.serves = [driving.serves_of(building, car) for car in range(len(building["cars"]))]
        self.is_full = lambda car: False  # told by the simulation, as what is to come of its passengers is
        self.goals = lambda car: ()

    def press(self, floor, dir):
        self.pressed.setdefault((floor, dir), True)

    def suits(self, car, floor, dir):
        here, way = self.at[car]
        far = abs(floor - here)
        is_idle = not self.goals(car) and not any(it == car for it in self.owners.values())
        is_ahead = floor >= here if way == "up" else floor <= here
        if is_idle:
            return self.building["floors"] + 1 - far
        return self.building["floors"] + (2 if way == dir else 1) - far if is_ahead else 1

    def allot(self):
        self.owners = {}
        for floor, dir in self.pressed:
            cars = [car for car in self.at if floor in self.serves[car] and not self.is_full(car)]
            if cars:
                self.owners[floor, dir] = max(cars, key=lambda car: (self.suits(car, floor, dir), -car))

    def next(self, car):
        self.allot()
        here, way = self.at[car]
        sign = 1 if way == "up" else -1
        halts = []
        wanted = [(floor, dir) for (floor, dir), owner in self.owners.items() if owner == car]
        wanted += [(to, dir) for to, dir in self.goals(car)]
        for floor, dir in wanted:
            mine = 1 if dir == "up" else -1
            sweep = 2 if dir != way else 1 if (floor - here) * sign >= 0 else 3
            halts.append((sweep, floor * mine, floor, dir))
        return min(halts)[2:] if halts else None

    def place(self, car, floor, dir):
        self.at[car] = (floor, dir)
        return self.next(car)

    def stop(self, car, floor, dir):
        self.at[car] = (floor, dir)
        self.pressed.pop((floor, dir), None)
        return self.next(car)

    def end(self):
        pass


# A car that is a program of its own


class Piped:
    """The steps of a car that another program takes: it says a line `AT <ms>`, `PLACE <floor> <dir>` or `STOP <number> <floor> <dir>` on
    its standard output, and is told what comes of it on its standard input: `NOW <ms>`, or the answer of the group."""

    def __init__(self, words, building_file, door_ms, car, floor):
        told = [*shlex.split(words), "-", letter(car), str(building_file), str(floor), "up"]
        self.process = subprocess.Popen(told, stdin=subprocess.PIPE, stdout=subprocess.PIPE, text=True, bufsize=1)
        self.now, self.door_ms, self.opened = 0.0, door_ms, 0.0

    def opened_at(self, _floor):
        return self.opened

    def steps(self):
        is_open = False
        while line := self.process.stdout.readline():
            words = line.split()
            if words[0] == "AT":
                yield driving.At(float(words[1]))
                said, is_open = "NOW " + f"{self.now:.3f}".rstrip("0").rstrip("."), False
            elif words[0] == "PLACE":
                said = said_of((yield driving.Place(int(words[1]), words[2])))
            else:
                self.opened = self.opened if is_open else self.now - self.door_ms
                is_open = True
                said = said_of((yield driving.Stop(int(words[2]), words[3])))
            self.process.stdin.write(said + "\n")
        raise Failed("a car's program has ended")

    def end(self):
        self.process.kill()
        self.process.communicate()


def said_of(stop):
    return f"NEXT {stop[0]} {stop[1]}" if stop else "IDLE"


# What goes on


class Simulation:
    """An hour of traffic, or as much as is wished. `front` is what stands between the terminals and the group, if anything does."""

    def __init__(self, building, group, cars, people, plan, front=None):
        self.building, self.group, self.people, self.plan, self.front = building, group, people, plan, front
        self.now, self.events, self.count = 0.0, [], 0
        self.cars = cars
        self.running = [car.steps() for car in cars]
        self.waiting = [[] for _ in cars]  # with a car's letter
        self.aboard = [[] for _ in cars]
        self.landing = {}  # conventional: who waits at a floor for a direction
        self.places = [None] * len(cars)
        self.opened = [0.0] * len(cars)
        self.came, self.unfinished = [], 0
        self.is_over = False
        self.turn, self.cycles = 0, [[] for _ in cars]  # when each car has stopped at the lobby
        self.lobby = lobby_of(building)
        if group.name == "conventional":
            group.is_full = lambda car: len(self.aboard[car]) >= plan.capacity[car]
            group.goals = lambda car: {(it.to, it.dir) for it in self.aboard[car]}

    def at(self, moment, what, *told):
        self.count += 1
        heapq.heappush(self.events, (max(moment, self.now), self.count, what, told))

    def run(self):
        for car in range(len(self.cars)):
            self.at(0, self.step, car, None)
        self.next_passenger()
        end = self.plan.until + AFTER * (self.plan.until - self.plan.since)
        while self.events and not self.is_over:
            self.now, _, what, told = heapq.heappop(self.events)
            if self.now > end:
                break
            what(*told)
        return self.came

    # passengers

    def next_passenger(self):
        come, start, to = next(self.people)
        if come >= self.plan.until and (not self.unfinished or self.plan.is_alone):
            self.is_over = not self.unfinished
            return
        self.at(come, self.come, Passenger(come, start, to, self.plan.since <= come < self.plan.until))

    def come(self, passenger):
        if passenger.is_measured:
            self.came.append(passenger)
            self.unfinished += 1
        self.next_passenger()
        self.call(passenger)

    def kiosk_of(self, floor):
        """The kiosks of a floor take turns."""
        kiosks = [number for number, it in enumerate(self.building["kiosks"]) if it == floor]
        self.turn += 1
        return kiosks[self.turn % len(kiosks)]

    def call(self, passenger):
        if self.group.name == "conventional":
            passenger.there = self.now
            self.landing.setdefault((passenger.start, passenger.dir), []).append(passenger)
            self.group.press(passenger.start, passenger.dir)
            return
        kiosk = self.kiosk_of(passenger.start)
        if self.front and not self.front.may_call(kiosk, passenger, self.now):
            self.at(self.now + WAIT_MS, self.call, passenger)
            return
        car = self.group.call(kiosk, passenger.to)
        is_waiting = self.front and self.front.answered(kiosk, passenger, car, self.now)
        if car is None:
            passenger.refused += not is_waiting
            self.at(self.now + (WAIT_MS if is_waiting else self.plan.retry), self.call, passenger)
            return
        passenger.car, passenger.given, passenger.there = car, self.now, self.now + self.plan.walk
        passenger.first_given = passenger.first_given or self.now
        self.waiting[car].append(passenger)

    def gone(self, passenger):
        passenger.left = self.opened[passenger.car]
        if passenger.is_measured:
            self.unfinished -= 1
            if not self.unfinished and self.now >= self.plan.until:
                self.is_over = True

    # cars

    def step(self, number, told):
        """A car goes on with what came of its last step, until it has to wait."""
        car, steps = self.cars[number], self.running[number]
        while True:
            car.now = self.now
            step = steps.send(told)
            if isinstance(step, driving.At):
                if step.ms > self.now:
                    self.at(step.ms, self.step, number, None)
                    return
                told = None
            elif isinstance(step, driving.Place):
                self.moved(number, step)
                told = self.group.place(number, step.floor, step.dir)
            else:
                until = self.front.held(number, step, self.now) if self.front else self.now
                if until > self.now:
                    self.at(until, self.held, number, step, self.now)
                    return
                told = self.stop(number, step)

    def held(self, number, step, since):
        """A stop whose report the front has held: others may have been given this letter meanwhile."""
        until = min(self.front.held(number, step, self.now), since + 1000 * proxy.HOLD_S)
        if until > self.now:
            self.at(until, self.held, number, step, since)
        else:
            self.step(number, self.stop(number, step))

    def moved(self, number, place):
        """Where a car says that it is: whoever waits for it at a floor that it has gone by was passed by."""
        before, self.places[number] = self.places[number], (place.floor, place.dir)
        if not before or before[1] != place.dir:
            return
        low, high = (before[0], place.floor - 1) if place.dir == "up" else (place.floor + 1, before[0])
        for passenger in self.waiting[number]:
            if low <= passenger.start <= high and passenger.dir == place.dir:
                passenger.passed = True

    def stop(self, number, stop):
        """Passengers leave and board, and the group is told."""
        opened = self.opened[number] = self.cars[number].opened_at(stop.floor)
        if (before := self.places[number]) and before[0] != stop.floor:
            way = "up" if stop.floor > before[0] else "down"
            self.places[number] = (before[0], way)
            self.moved(number, driving.Place(stop.floor, way))  # a car that hasn't said so on the way
        self.places[number] = (stop.floor, stop.dir)
        if stop.floor == self.lobby:
            self.cycles[number].append(self.now)
        for passenger in [it for it in self.aboard[number] if it.to == stop.floor]:
            self.aboard[number].remove(passenger)
            self.gone(passenger)
        if self.group.name == "conventional":
            return self.stop_of_buttons(number, stop, opened)
        for passenger in [it for it in self.waiting[number] if it.start == stop.floor and it.dir == stop.dir]:
            self.waiting[number].remove(passenger)
            is_full = len(self.aboard[number]) >= self.plan.capacity[number]
            if passenger.there > self.now or is_full:
                passenger.behind += passenger.there > self.now
                passenger.full += is_full
                self.at(max(passenger.there, self.now), self.call, passenger)
            else:
                self.board(number, passenger, opened)
        if self.front:
            self.front.stopped(number, stop, self.now)
        return self.group.stop(number, stop.floor, stop.dir)

    def board(self, number, passenger, opened):
        passenger.car, passenger.opened = number, max(opened, passenger.there)
        self.aboard[number].append(passenger)

    def stop_of_buttons(self, number, stop, opened):
        there = self.landing.get((stop.floor, stop.dir), [])
        room = self.plan.capacity[number] - len(self.aboard[number])
        for passenger in there[:room]:
            self.board(number, passenger, opened)
        self.landing[stop.floor, stop.dir] = there[room:]
        told = self.group.stop(number, stop.floor, stop.dir)
        for passenger in there[room:]:
            passenger.full += 1
            self.group.press(stop.floor, stop.dir)
        return self.group.next(number) if there[room:] else told


class Plan:
    """What is measured of a run: who comes from `since` on and before `until`; how long a passenger walks from the kiosk to the
    car, and after how long he calls again; how many persons a car holds. Where it is `alone` nobody comes after that."""

    def __init__(self, since, until, capacity, retry=20_000, walk=0, is_alone=False):
        self.since, self.until, self.capacity, self.retry, self.walk, self.is_alone = since, until, capacity, retry, walk, is_alone


def mean(numbers):
    numbers = list(numbers)
    return sum(numbers) / len(numbers) if numbers else float("nan")


def share(told):
    return 100 * mean(map(bool, told))


class Figures:
    """What came of the passengers of a run. Who hasn't boarded or left counts with the time until the run's end."""

    def __init__(self, simulation, plan):
        came, end = simulation.came, simulation.now
        waits = [((it.opened if it.opened is not None else end) - it.come) / 1000 for it in came]
        self.wait, self.way = mean(waits), mean(((it.left if it.left is not None else end) - it.come) / 1000 for it in came)
        self.persons, self.longest = len(came), max(waits, default=float("nan"))
        self.refused, self.passed = share(it.refused for it in came), share(it.passed for it in came)
        self.behind, self.full = share(it.behind for it in came), share(it.full for it in came)
        self.unserved = sum(it.left is None for it in came)
        self.overtaken = overtaken(came)
        self.minutes = [(int((it.come - plan.since) // 60_000), wait) for it, wait in zip(came, waits)]
        last = plan.until - (plan.until - plan.since) / 4
        self.is_jam = mean(wait for it, wait in zip(came, waits) if it.come >= last) * 1000 > JAM_MS
        self.cycles = simulation.cycles


def overtaken(came):
    """By how many seconds at most somebody was given his letter after one who came later; they are in the order in which they came."""
    most, first = 0.0, float("inf")
    for it in reversed([it for it in came if it.first_given is not None]):
        most, first = max(most, it.first_given - first), min(first, it.first_given)
    return most / 1000


def waits_by_minute(runs, minutes):
    told = [[] for _ in range(minutes)]
    for run in runs:
        for minute, wait in run.minutes:
            told[minute].append(wait)
    return told


def calm_after(told, begins, lasts, run=10):
    """How many minutes behind the end of a burst those who come in the next ten wait no longer than half as much again as those before
    it; None where they never do."""
    before, end = mean(wait for minute in told[:begins] for wait in minute), begins + lasts
    for at in range(end, len(told) - run + 1):
        if mean(wait for minute in told[at:at + run] for wait in minute) <= 1.5 * before:
            return at - end
    return None


# Whose cars, and what is in front


class Front:
    """The proxy's own front, to which the simulation tells the lines of kiosks and cars."""

    def __init__(self, building, is_queue, walk):
        self.front, self.tickets = proxy.Front(building, is_queue, walk / 1000), {}

    def may_call(self, kiosk, passenger, now):
        number = self.front.last.get(f"K{kiosk}", 0) + 1
        words = ["CALL", str(number), str(passenger.to), "1", *([str(self.tickets[passenger])] if passenger in self.tickets else [])]
        line, told = self.front.asked(f"K{kiosk}", words, now / 1000)
        if line is None:
            self.tickets[passenger] = int(told.split()[1])
            return False
        self.tickets.pop(passenger, None)
        return True

    def answered(self, kiosk, passenger, car, now):
        """Whether the passenger who was given no car keeps a ticket."""
        number = self.front.last.get(f"K{kiosk}", 0) + 1
        answer = ["NO", "3"] if car is None else ["CAR", letter(car)]
        words = self.front.answered(f"K{kiosk}", ["CALL", str(number), str(passenger.to), "1"], answer, now / 1000).split()
        if words[0] == "WAIT":
            self.tickets[passenger] = int(words[1])
        return words[0] == "WAIT"

    def words_of(self, car, stop):
        return ["STOP", str(self.front.last.get(letter(car), 0) + 1), str(stop.floor), stop.dir]

    def held(self, car, stop, now):
        return round(1000 * self.front.asked(letter(car), self.words_of(car, stop), now / 1000)[1])

    def stopped(self, car, stop, now):
        self.front.answered(letter(car), self.words_of(car, stop), ["IDLE"], now / 1000)


class Lesser(driving.Driving):
    """A car that leaves out some of what the reference client does, to see what it is worth."""

    def __init__(self, building, car, floor, home, without):
        super().__init__(building, car, floor, home=None if "home" in without else home)
        self.without, self.named = without, self.dir

    def exchange(self, stop):
        if "held" not in self.without:
            self.named = stop[1]
            return (yield from super().exchange(stop))
        self.opened = self.now
        yield driving.At(self.now + self.open_ms())
        self.dir = self.named = stop[1]
        return (yield driving.Stop(self.floor, self.dir))  # and where the next stop is here too, its doors open again

    def goal(self, stop, before):
        return stop[0] if stop else before if self.home is None else self.home

    def place(self, floor, stop):
        self.named = stop[1] if stop else self.named
        return driving.Place(floor, self.named if "travel" in self.without else self.dir)

    def fly(self, stop):
        origin, since = self.floor, self.now
        goal = stop[0] if stop else self.home
        way = 1 if goal > origin else -1
        self.dir, self.named = "up" if way == 1 else "down", stop[1] if stop else self.named
        ahead = [floor for floor in self.serves[::way] if (floor - origin) * way > 0]
        for floor in ahead if "way" not in self.without else [goal]:
            if "way" not in self.without:
                stop = yield self.place(floor, stop)
                goal = self.goal(stop, goal)
            lead = 0 if "again" in self.without else driving.LEAD_MS
            yield driving.At(since + self.times[origin][floor] - self.braking_ms(floor) - lead)
            if "again" not in self.without:
                stop = yield self.place(floor, stop)
                goal = self.goal(stop, goal)
            if (goal - floor) * way <= 0:
                break
        yield driving.At(since + self.times[origin][floor])
        self.floor = floor
        if "again" in self.without and stop:
            return stop
        return (yield self.place(floor, stop))


def simulated(liftd, building, policy, people, plan, words):
    """An hour of traffic that has been played."""
    lobby = lobby_of(building)
    homes = [lobby if lobby in (floors := driving.serves_of(building, car)) else floors[0] for car in range(len(building["cars"]))]
    if words.car:
        cars = [Piped(words.car, words.file, building["door_ms"], car, home) for car, home in enumerate(homes)]
    elif words.leave_out:
        cars = [Lesser(building, car, home, home, words.leave_out) for car, home in enumerate(homes)]
    else:
        cars = [driving.Driving(building, car, home, home=home) for car, home in enumerate(homes)]
    group = Conventional(building) if policy == "conventional" else Served(liftd, building, policy)
    front = Front(building, words.queue, plan.walk if words.hold else 0) if words.queue or words.hold else None
    try:
        simulation = Simulation(building, group, cars, people, plan, front)
        simulation.run()
    finally:
        group.end()
        for car in cars if words.car else []:
            car.end()
    return simulation
