"""The group controller once more, plain and slow, to judge the program by: whole lists, and a disk whose sectors are bytes.

Written from docs/formats.md, docs/definitions.md and docs/scripts.md alone, and sharing nothing with the program: each
question about a call is answered by a search of the whole list of entries, each commit is a list of device calls that is
carried out one by one, and each recovery reads the whole image. `report` is what a script has to report, `shown` what
`liftd show` has to tell of an image. What is refused of a building or an image is also told in words, for the owner's kit in dist/.

`wrong` breaks one rule on purpose, so that a campaign can be seen to notice it; its names are in WRONG.
"""
import re
import tomllib
from collections import namedtuple

WRONG = {
    "letter-lost": "a batch whose second sync failed is taken to be out, though the cut keeps its gate",
    "gate-early": "the gate is opened before the body is synced",
    "gate-left": "the gate after a batch isn't closed",
    "pick-early": "a checkpoint's pick is written before its half is synced",
    "pick-kept": "a failed pick that was filled with A5 is read as the first half",
    "last-dropped": "a checkpoint loses the last command of each car",
    "room-short": "a batch wants two sectors more than it does",
    "boards-both": "a stop boards the waiting of both directions",
    "leaves-by-direction": "passengers leave only at a stop of their direction",
    "behind-dropped": "a stop behind the car is dropped from its list",
    "aboard-free": "costs leave out who is aboard",
    "only-the-new": "only the new call is weighed",
    "party-of-one": "costs count each call once, whatever its party",
    "doors-free": "stops on the way cost no doors",
    "tie-last": "of equal costs the last car is picked",
    "places-for-calls": "places count calls and not persons",
    "repeat-is-old": "a repeated number is refused as old",
    "gap-taken": "a number with a gap is taken",
    "own-floor-taken": "a call to the kiosk's own floor goes to a car",
    "repeat-moves-nobody": "a repeated stop leaves the car where it was told",
    "place-survives": "a power cut leaves the cars where they told to be",
    "fuse-one-more": "a fuse lets one call more pass",
    "versions-fall": "a batch of version 1 may stand after one of version 2",
    "number-unread": "the numbers of batches aren't looked at",
    "base-unended": "a base may end without its last record",
    "tail-unread": "what stands after the records of a body isn't looked at",
    "done-uncounted": "the count of done calls isn't compared",
    "old-party-none": "a record of version 1 has a party of none",
}
wrong = None

OPEN, SECTOR = 0xA5, 512
TOP_NUMBER, TOP_DONE = 16_777_215, 788_529_105
UP, DOWN = 0, 1

Building = namedtuple("Building", "floors door kiosks flight cars")
Car = namedtuple("Car", "places serves")
Shape = namedtuple("Shape", "floors cars kiosks half")
Allot = namedtuple("Allot", "kiosk number start to car party")
Stop = namedtuple("Stop", "car number floor dir")
Row = namedtuple("Row", "kiosk number start to car party aboard")
Last = namedtuple("Last", "terminal number content")
Done = namedtuple("Done", "count")
Letter = namedtuple("Letter", "start to car party")
Stopped = namedtuple("Stopped", "floor dir")


class Refused(Exception):
    """An opening that is refused: the journal's fault, with its sector or its place; and in words why."""

    def __init__(self, *fault, why=""):
        super().__init__(*fault)
        self.why = why


class Broken(Exception):
    """A rule of the chain that doesn't hold, in words."""


class Failed(Exception):
    """A device call that failed."""


class BadBuilding(Exception):
    """A building's text that is refused: the number of its first fault, and floors for the last one; where it is, and what."""

    def __init__(self, place, told, *fault):
        super().__init__(*fault)
        self.place, self.told = place, told


# The building's text

MOST_WITHIN = 80  # arrays and tables within one another


def shown_value(value):
    """A value of TOML, as a message shows it."""
    kinds = {bool: "a boolean", str: "a string", float: "a float", list: "an array", dict: "a table", int: "an integer"}
    kind = kinds.get(type(value), "a date or a time")
    return kind if isinstance(value, (list, dict)) else f"{kind}, {str(value)[:40]!r}"


def beyond_the_dialect(value, within=0):
    """What Python's reader of TOML takes and liftd's doesn't: an integer of more than 64 bits, values too deep in one another."""
    if within > MOST_WITHIN:
        return f"more than {MOST_WITHIN} arrays or tables stand within one another"
    if type(value) is int and not -(2**63) <= value < 2**63:
        return f"the integer {str(value)[:40]} has more than 64 bits"
    inner = value.values() if isinstance(value, dict) else value if isinstance(value, list) else ()
    return next(filter(None, (beyond_the_dialect(item, within + 1) for item in inner)), None)


def toml_of(text):
    """The table that a text is. TOML 1.1, which liftd reads, has a few forms that Python's reader refuses; no building needs them."""
    try:
        table = tomllib.loads(text.removeprefix("\ufeff"))
        fault = beyond_the_dialect(table, -1)
    except (ValueError, RecursionError) as refused:
        fault = str(refused)
    if fault:
        raise BadBuilding("the text", f"is no TOML: {fault}", 1)
    return table


def integer(value, place, low, high):
    if type(value) is not int:
        raise BadBuilding(place, f"is {shown_value(value)}, and has to be an integer", 3)
    if not low <= value <= high:
        raise BadBuilding(place, f"is {value}, and " + (f"has to be {low}" if low == high else f"may be {low} to {high}"), 4)
    return value


def key(table, name, of=""):
    if name not in table:
        raise BadBuilding(name + of, "is missing", 2)
    return table[name]


def array(value, place, of="an array"):
    if not isinstance(value, list):
        raise BadBuilding(place, f"is {shown_value(value)}, and has to be {of}", 3)
    return value


def counted(items, place, least, most):
    if not least <= len(items) <= most:
        raise BadBuilding(place, f"has {len(items)} items, and may have {least} to {most}", 4)
    return items


def as_many_as_floors(items, place, name, floors):
    if len(items) != floors:
        raise BadBuilding(place, f"has {len(items)} {name}, and floors is {floors}", 5)
    return items


def flight_of(value, floors):
    flight = as_many_as_floors(array(value, "flight"), "flight", "rows", floors)
    for i, row in enumerate(flight):
        as_many_as_floors(array(row, f"flight[{i}]"), f"flight[{i}]", "items", floors)
        for j, time in enumerate(row):
            integer(time, f"flight[{i}][{j}]", 0 if i == j else 1, 0 if i == j else 600_000)
    return flight


def car_of(value, letter, floors):
    if not isinstance(value, dict):
        raise BadBuilding(f"car {letter}", f"is {shown_value(value)}, and has to be a table", 3)
    of = f" of car {letter}"
    places = integer(key(value, "places", of), f"places{of}", 1, 32)
    if "serves" not in value:
        return Car(places, frozenset(range(floors)))
    serves = array(value["serves"], f"serves{of}")
    if not serves:
        raise BadBuilding(f"serves{of}", "has no item, and needs one at least", 4)
    return Car(places, frozenset(integer(floor, f"serves[{at}]{of}", 0, floors - 1) for at, floor in enumerate(serves)))


def no_detour(flight, door):
    """No stop on the way saves time."""
    for i, row in enumerate(flight):
        for j, first in enumerate(row):
            for k, second in enumerate(flight[j]):
                if row[k] > first + door + second:
                    way = f"by way of floor {j} with its doors it takes {first} + {door} + {second} = {first + door + second}"
                    raise BadBuilding(f"flight[{i}][{k}]", f"is {row[k]}, but {way}", 6, i, j, k)


def building_of(text):
    table = toml_of(text)
    floors = integer(key(table, "floors"), "floors", 2, 64)
    door = integer(key(table, "door_ms"), "door_ms", 0, 60_000)
    kiosks = counted(array(key(table, "kiosks"), "kiosks"), "kiosks", 1, 47)
    for at, floor in enumerate(kiosks):
        integer(floor, f"kiosks[{at}]", 0, floors - 1)
    flight = flight_of(key(table, "flight"), floors)
    cars = counted(array(key(table, "cars"), "cars", "an array of tables"), "cars", 1, 16)
    cars = [car_of(car, chr(65 + at), floors) for at, car in enumerate(cars)]
    no_detour(flight, door)
    return Building(floors, door, kiosks, flight, cars)


# Calls, registers


def direction(call):
    return UP if call.to > call.start else DOWN


def status(call, is_aboard, stops):
    """Whether a call waits, rides or is done after these stops of its car: 0, 1, 2."""
    at = 0
    if not is_aboard:
        while at < len(stops):
            stop = stops[at]
            at += 1
            if stop.floor == call.start and (stop.dir == direction(call) or wrong == "boards-both"):
                break
        else:
            return 0
    for stop in stops[at:]:
        if stop.floor == call.to and (wrong != "leaves-by-direction" or stop.dir == direction(call)):
            return 2
    return 1


class Register:
    """The open calls, each terminal's last command and the count of done calls, of a base and the entries after it."""

    def __init__(self, base, entries):
        stops, behind = {}, {}
        for at, entry in enumerate(entries):
            if isinstance(entry, Stop):
                stops.setdefault(entry.car, []).append(entry)
            else:
                behind[at] = len(stops.get(entry.car, ()))
        self.rows, self.last, self.done = [], {}, 0
        for record in base:
            if isinstance(record, Row):
                self.note(record, status(record, record.aboard, stops.get(record.car, [])))
            elif isinstance(record, Last):
                self.last[record.terminal] = (record.number, record.content)
            else:
                self.done += record.count
        for at, entry in enumerate(entries):
            if isinstance(entry, Stop):
                self.last[entry.car] = (entry.number, Stopped(entry.floor, entry.dir))
            else:
                self.note(entry, status(entry, False, stops.get(entry.car, [])[behind[at]:]))
                self.last[entry.kiosk] = (entry.number, Letter(entry.start, entry.to, entry.car, entry.party))
        self.rows.sort(key=lambda row: row.car)

    def note(self, call, now):
        if now == 2:
            self.done += 1
        else:
            self.rows.append(Row(call.kiosk, call.number, call.start, call.to, call.car, call.party, now == 1))

    def base(self):
        last = sorted(self.last.items())
        if wrong == "last-dropped":
            last = [it for it in last if it[0] >= 16]
        return self.rows + [Last(terminal, *it) for terminal, it in last] + [Done(self.done)]

    def told(self):
        return self.rows, self.last, self.done

    def number(self, terminal):
        return self.last[terminal][0] if terminal in self.last else 0

    def of(self, car):
        return [row for row in self.rows if row.car == car]

    def persons(self, car):
        rows = self.of(car)
        return len(rows) if wrong == "places-for-calls" else sum(row.party for row in rows)

    def lines(self):
        told = [f"rows {len(self.rows)} {self.done}"]
        for row in self.rows:
            state = "aboard" if row.aboard else "waiting"
            party = f" x{row.party}" if row.party > 1 else ""
            told.append(f"{chr(65 + row.car)} K{row.kiosk - 16} {row.number} {row.start} {row.to} {state}{party}")
        return told


# Stop lists and costs


def call_pass(call, position):
    floor, dir = position
    leg = call.to if call.aboard else call.start
    if direction(call) != dir:
        return 2
    return 1 if (leg >= floor if dir == UP else leg <= floor) else 3


def pass_direction(number, dir):
    return 1 - dir if number == 2 else dir


def halts(rows, position):
    told = set()
    for row in rows:
        for leg in [row.to] if row.aboard else [row.start, row.to]:
            told.add((call_pass(row, position), leg))
    if wrong == "behind-dropped":
        told = {halt for halt in told if halt[0] != 3}
    return sorted(told, key=lambda halt: (halt[0], halt[1] if pass_direction(halt[0], position[1]) == UP else -halt[1]))


def next_stop(rows, position):
    told = halts(rows, position)
    return (told[0][1], pass_direction(told[0][0], position[1])) if told else None


def times(building, rows, position):
    """The sum of all persons' times to their destinations."""
    at, time, arrival = position[0], 0, {}
    for place, halt in enumerate(halts(rows, position)):
        time += building.flight[at][halt[1]]
        if place and wrong != "doors-free":
            time += building.door
        at = halt[1]
        arrival[halt] = time
    if wrong == "aboard-free":
        rows = [row for row in rows if not row.aboard]
    if wrong == "behind-dropped":
        rows = [row for row in rows if (call_pass(row, position), row.to) in arrival]
    return sum((1 if wrong == "party-of-one" else row.party) * arrival[(call_pass(row, position), row.to)] for row in rows)


def total_cost(building, rows, position, start, to, party):
    new = Row(None, None, start, to, None, party, False)
    if wrong == "only-the-new":
        at, time = position[0], 0
        for place, halt in enumerate(halts(rows + [new], position)):
            time += building.flight[at][halt[1]] + (building.door if place else 0)
            at = halt[1]
            if halt == (call_pass(new, position), to):
                return party * time
    return times(building, rows + [new], position) - times(building, rows, position)


# Records and batches in bytes


def number_bytes(number):
    return number.to_bytes(4, "big")


def encode(record, version):
    party = [0]
    if hasattr(record, "party"):
        party = [record.party if version == 2 else 0]
    if isinstance(record, Allot):
        kind, terminal, number = 1, record.kiosk, record.number
        middle = [record.start, record.to, record.car, *party, 0, 0]
    elif isinstance(record, Stop):
        kind, terminal, number = 2, record.car, record.number
        middle = [record.floor, record.dir, 0, 0, 0, 0]
    elif isinstance(record, Row):
        kind, terminal, number = 4, record.kiosk, record.number
        middle = [record.start, record.to, record.car, *party, int(record.aboard), 0]
    elif isinstance(record, Last):
        kind, terminal, number, it = 5, record.terminal, record.number, record.content
        if isinstance(it, Letter):
            middle = [it.start, it.to, it.car, it.party if version == 2 else 0, 0, 0]
        else:
            middle = [it.floor, it.dir, 0, 0, 0, 0]
    else:
        kind, terminal, number, middle = 6, 0, record.count, [0] * 6
    return bytes([kind, terminal, *middle]) + number_bytes(number) + bytes(4)


def read_record(version, told):
    """The record that these sixteen bytes spell, or None."""
    kind, terminal, a, b, car, party, state = told[:7]
    number = int.from_bytes(told[8:12], "big")
    is_kiosk, is_car = 16 <= terminal <= 62, terminal <= 15
    if version == 1:
        if party != 0:
            return None
        party = 0 if wrong == "old-party-none" else 1
    is_call = a <= 63 and b <= 63 and a != b and car <= 15 and 0 <= party <= 15 and (party or wrong == "old-party-none")
    is_stop = a <= 63 and b <= 1
    record = None
    if kind == 1 and is_kiosk and is_call:
        record = Allot(terminal, number, a, b, car, party)
    elif kind == 2 and is_car and is_stop:
        record = Stop(terminal, number, a, b)
    elif kind == 4 and is_kiosk and is_call and state <= 1:
        record = Row(terminal, number, a, b, car, party, state == 1)
    elif kind == 5 and is_kiosk and is_call:
        record = Last(terminal, number, Letter(a, b, car, party))
    elif kind == 5 and is_car and is_stop:
        record = Last(terminal, number, Stopped(a, b))
    elif kind == 6:
        return Done(number) if number <= TOP_DONE and encode(Done(number), version) == told else None
    if record is None or not 1 <= number <= TOP_NUMBER or encode(record, version) != told:
        return None
    return record


def bodies(count):
    return 1 if count <= 31 else 2


def body(records, number, version=2):
    """The body sectors of a batch."""
    told = bytes([0x4C, 0x42, version, 0]) + len(records).to_bytes(2, "big") + bytes(2) + number_bytes(number) + bytes(4)
    told += b"".join(encode(record, version) for record in records)
    told = told.ljust(SECTOR * bodies(len(records)), b"\0")
    return [told[at:at + SECTOR] for at in range(0, len(told), SECTOR)]


def gate(is_open):
    return bytes([OPEN if is_open else 0]).ljust(SECTOR, b"\0")


def stamp(shape):
    told = b"LIFTJRNL" + bytes([shape.floors, shape.cars, shape.kiosks, 0]) + number_bytes(shape.half)
    return told.ljust(SECTOR, b"\0")


def format_sectors(shape):
    told = [bytes(SECTOR)] * (2 + 2 * shape.half)
    told[1] = stamp(shape)
    return told


# An image


Read = namedtuple("Read", "shape second base entries used batches records")
Batch = namedtuple("Batch", "at number version records")
# The batches of a half, where their chain ends, and the rule that is broken there.
Chain = namedtuple("Chain", "batches end broken")


def in_bytes(told):
    return told.hex(" ").upper()


def read_stamp(sectors):
    if len(sectors) < 2:
        raise Refused(2, why="it has no sector 1 for the stamp")
    told = sectors[1]
    shape = Shape(told[8], told[9], told[10], int.from_bytes(told[12:16], "big"))
    if told[:8] != b"LIFTJRNL":
        raise Refused(2, why=f"the stamp begins with {in_bytes(told[:8])}, and not with the letters LIFTJRNL")
    if told != stamp(shape):
        raise Refused(2, why="the stamp has other bytes than zeros where it says nothing")
    for name, value, low, high in zip(shape._fields, shape, (2, 1, 1, 64), (64, 16, 47, 1_000_000)):
        if not low <= value <= high:
            raise Refused(2, why=f"the stamp's {'sectors of a half' if name == 'half' else name}: {value}, and there may be {low} to {high}")
    if len(sectors) < 2 + 2 * shape.half:
        raise Refused(2, why=f"it has {len(sectors)} sectors, and by its stamp {2 + 2 * shape.half}")
    return shape


def read_header(header, number, version):
    """The version and the count of records that a body's first sixteen bytes tell."""
    count = int.from_bytes(header[4:6], "big")
    if header[:2] != b"LB":
        raise Broken(f"its body begins with {in_bytes(header[:2])}, and not with 4C 42")
    if header[2] not in (1, 2):
        raise Broken(f"its version is {header[2]}, and may be 1 or 2")
    if header[3] or header[6:8] != bytes(2) or header[12:] != bytes(4):
        raise Broken(f"a byte of its header that says nothing isn't zero: {in_bytes(header)}")
    if not 1 <= count <= 63:
        raise Broken(f"it has {count} records, and may have 1 to 63")
    if header[2] < version and wrong != "versions-fall":
        raise Broken(f"its version is {header[2]} after one of version {version}")
    if header[8:12] != number_bytes(number) and wrong != "number-unread":
        raise Broken(f"its number is {int.from_bytes(header[8:12], 'big')}, and has to be {number}")
    return header[2], count


def read_batch(half, at, number, version):
    """The batch after an open gate."""
    if at + 2 >= len(half):
        raise Broken("the half has no room for its body and the next gate")
    version, count = read_header(half[at + 1][:16], number, version)
    if at + 1 + bodies(count) >= len(half):
        raise Broken(f"the half has no room for its {count} records and the next gate")
    told = b"".join(half[at + 1 + place] for place in range(bodies(count)))
    if any(told[16 + 16 * count:]) and wrong != "tail-unread":
        raise Broken("what follows its records isn't zero")
    records = []
    for place in range(16, 16 + 16 * count, 16):
        record = read_record(version, told[place:place + 16])
        if record is None:
            raise Broken(f"its record {len(records) + 1} of {count} is none: {in_bytes(told[place:place + 16])}")
        records.append(record)
    return Batch(at, number, version, records)


class Order:
    """How far a chain's records have come: a base or none, open calls first; then entries alone."""

    OPEN_CALLS, LAST, ENTRIES = 1, 2, 3

    def __init__(self):
        self.stage, self.car, self.terminal = 0, 0, -1

    def take(self, record):
        if isinstance(record, Row):
            self.come_to(self.OPEN_CALLS, "an open call", record.car >= self.car, "of a lower car than the one before it")
            self.car = record.car
        elif isinstance(record, Last):
            self.come_to(self.LAST, "a last command", record.terminal > self.terminal, "of a terminal not above the one before it")
            self.terminal = record.terminal
        elif isinstance(record, Done):
            self.come_to(self.LAST, "a count of done calls", True, "")
            self.stage = self.ENTRIES
        elif self.is_within_base():
            raise Broken("an entry stands in a base, before its count of done calls")
        else:
            self.stage = self.ENTRIES

    def come_to(self, stage, name, is_right, why):
        if self.stage > stage:
            raise Broken(f"{name} stands after {'a last command' if self.stage == self.LAST else 'the base or an entry'}")
        if not is_right:
            raise Broken(f"{name} is {why}")
        self.stage = stage

    def is_within_base(self):
        return self.stage in (self.OPEN_CALLS, self.LAST)


def read_chain(half):
    """The chain of gates and batches from a half's first sector on."""
    batches, at, version, order = [], 0, 1, Order()
    try:
        while half[at][0] == OPEN:
            batch = read_batch(half, at, len(batches) + 1, version)
            for record in batch.records:
                order.take(record)
            batches.append(batch)
            version, at = batch.version, at + 1 + bodies(len(batch.records))
        if order.is_within_base() and wrong != "base-unended":
            raise Broken("the base ends without its count of done calls")
    except Broken as rule:
        return Chain(batches, at, str(rule))
    return Chain(batches, at, None)


def read_image(sectors):
    """What an image reads as; refuses one that isn't formatted or is damaged."""
    shape = read_stamp(sectors)
    second = sectors[0][0] == OPEN
    first = 2 + shape.half if second else 2
    chain = read_chain(sectors[first:first + shape.half])
    if chain.broken:
        raise Refused(3, first + chain.end, why=chain.broken)
    records = [record for batch in chain.batches for record in batch.records]
    based = [record for record in records if not isinstance(record, (Allot, Stop))]
    return Read(shape, second, based, records[len(based):], chain.end, len(chain.batches) + 1, records)


def is_allowed_call(building, kiosk, it):
    if not 16 <= kiosk < 16 + len(building.kiosks) or it.car >= len(building.cars):
        return False
    serves = building.cars[it.car].serves
    return building.kiosks[kiosk - 16] == it.start and it.start in serves and it.to in serves


def is_allowed_stop(building, car, it):
    return car < len(building.cars) and it.floor in building.cars[car].serves


def last_number(records, terminal):
    for record in reversed(records):
        of = record.terminal if isinstance(record, Last) else record.kiosk if isinstance(record, Allot) else None
        if terminal == (record.car if isinstance(record, Stop) else of):
            return record.number
    return 0


def does_fit(building, before, record):
    """Whether a record fits after those before it."""
    if isinstance(record, Last):
        allowed = is_allowed_call if isinstance(record.content, Letter) else is_allowed_stop
        return allowed(building, record.terminal, record.content)
    if isinstance(record, Done):
        rows = sum(isinstance(it, Row) for it in before)
        last = sum(it.number for it in before if isinstance(it, Last) and it.terminal >= 16)
        return rows + record.count == last or wrong == "done-uncounted"
    if isinstance(record, Row):
        taken = sum(it.party for it in before if it.car == record.car)
        return is_allowed_call(building, record.kiosk, record) and taken + record.party <= building.cars[record.car].places
    if isinstance(record, Stop):
        return is_allowed_stop(building, record.car, record) and record.number == last_number(before, record.car) + 1
    if not is_allowed_call(building, record.kiosk, record) or record.number != last_number(before, record.kiosk) + 1:
        return False
    based = [it for it in before if not isinstance(it, (Allot, Stop))]
    return Register(based, before[len(based):]).persons(record.car) + record.party <= building.cars[record.car].places


def open_image(building, sectors):
    read = read_image(sectors)
    if (read.shape.floors, read.shape.cars, read.shape.kiosks) != (building.floors, len(building.cars), len(building.kiosks)):
        raise Refused(6)
    for place, record in enumerate(read.records):
        if not does_fit(building, read.records[:place], record):
            raise Refused(7, place)
    return read


def shown(building, image):
    """Output, error and status of `liftd show` for an image and an accepted building."""
    sectors = [image[at:at + SECTOR] for at in range(0, len(image) - SECTOR + 1, SECTOR)]
    try:
        read = open_image(building, sectors)
    except Refused as fault:
        return b"", ("liftd: journal " + " ".join(map(str, fault.args)) + "\n").encode(), 1
    return ("\n".join(Register(read.base, read.entries).lines()) + "\n").encode(), b"", 0


# A device and its power cuts


class Device:
    """Sectors in memory, those of the last sync, and which of them are loose."""

    def __init__(self, sectors):
        self.sectors, self.safe, self.loose, self.passing = list(sectors), list(sectors), set(), None

    def call(self):
        if self.passing == 0:
            return False
        if self.passing:
            self.passing -= 1
        return True

    def write(self, at, told):
        self.loose.add(at)
        if not self.call():
            raise Failed
        self.sectors[at] = told

    def sync(self):
        if not self.call():
            raise Failed
        self.safe, self.loose = list(self.sectors), set()

    def cut(self, word, byte=0):
        for at in self.loose:
            if word == "lose":
                self.sectors[at] = self.safe[at]
            elif word == "fill":
                self.sectors[at] = bytes([byte]) * SECTOR
        if wrong == "pick-kept" and 0 in self.loose and word == "fill":
            self.sectors[0] = bytes(SECTOR)
        self.safe, self.loose, self.passing = list(self.sectors), set(), None


SYNC = (None, None)


class Group:
    """A group between two lines of a script."""

    def __init__(self, building, half=64):
        self.building = building
        self.shape = Shape(building.floors, len(building.cars), len(building.kiosks), half)
        self.device = Device(format_sectors(self.shape))
        self.base, self.entries, self.doubt = [], [], None
        self.second, self.used, self.batches = False, 0, 1
        self.positions, self.asks, self.is_broken = {}, {}, False
        self.known = (None, None)

    def register(self):
        if self.known[0] != len(self.entries):
            self.known = (len(self.entries), Register(self.base, self.entries))
        return self.known[1]

    def eligible(self, register, start, to, party):
        told = []
        for car, it in enumerate(self.building.cars):
            if car in self.positions and start in it.serves and to in it.serves:
                if register.persons(car) + party <= it.places:
                    told.append(car)
        return told

    def costs(self, start, to, party):
        register = self.register()
        return [(car, total_cost(self.building, register.of(car), self.positions[car], start, to, party))
                for car in self.eligible(register, start, to, party)]

    def cause(self, terminal, number, body):
        """The number of the first cause of a refusal that holds, or 0 for a new command, -1 for a repeat."""
        building, register, last = self.building, self.register(), self.register().number(terminal)
        is_call = terminal >= 16
        floor = body[0]
        if floor >= building.floors:
            return 1
        if not is_call and floor not in building.cars[terminal].serves:
            return 11
        if is_call and floor == building.kiosks[terminal - 16] and wrong != "own-floor-taken":
            return 2
        if not is_call and body[2]:
            return 0 if number == 0 else 5
        if number == last and number >= 1:
            content = register.last[terminal][1]
            same = (content.to, content.party) == body if is_call else tuple(content) == body[:2]
            if not same:
                return 6
            return 4 if wrong == "repeat-is-old" else -1
        if number == 0 or number < last:
            return 4
        if number > last + 1 and wrong != "gap-taken":
            return 5
        if is_call and not self.costs(building.kiosks[terminal - 16], *body):
            return 3
        return 0

    def decide(self, terminal, number, body):
        """The answer to a command; its entry joins those that are not safe yet."""
        cause = self.cause(terminal, number, body)
        if cause > 0:
            return f"NO {cause}"
        if terminal >= 16:
            if cause < 0:
                return "CAR " + chr(65 + self.register().last[terminal][1].car)
            start = self.building.kiosks[terminal - 16]
            costs = self.costs(start, *body)
            least = min(cost for _, cost in costs)
            car = [car for car, cost in costs if cost == least][-1 if wrong == "tie-last" else 0]
            self.entries.append(Allot(terminal, number, start, body[0], car, body[1]))
            return "CAR " + chr(65 + car)
        floor, dir, is_place = body
        if not is_place and cause == 0:
            self.entries.append(Stop(terminal, number, floor, dir))
        if not (cause < 0 and wrong == "repeat-moves-nobody") or terminal not in self.positions:
            self.positions[terminal] = (floor, dir)
        stop = next_stop(self.register().of(terminal), self.positions[terminal])
        return f"NEXT {stop[0]} {('up', 'down')[stop[1]]}" if stop else "IDLE"

    def place_of(self, second):
        return 2 + (self.shape.half if second else 0)

    def checkpoint_calls(self, base):
        """The device calls that write a base into the half that isn't picked, and pick it; its sectors."""
        calls, at, first = [], 0, self.place_of(not self.second)
        for number, begin in enumerate(range(0, len(base), 63), 1):
            told = body(base[begin:begin + 63], number)
            calls += [(first + at + 1 + place, it) for place, it in enumerate(told)]
            calls.append((first + at, gate(True)))
            at += 1 + len(told)
        pick = (0, gate(not self.second))
        calls += [(first + at, gate(False)), SYNC, pick, SYNC]
        if wrong == "pick-early":
            calls[-3:] = [pick, SYNC, SYNC]
        return calls, at

    def append_calls(self, batch, second, used, number):
        told, first = body(batch, number), self.place_of(second)
        calls = [(first + used + 1 + place, it) for place, it in enumerate(told)]
        calls += [(first + used + 1 + len(told), gate(False)), SYNC, (first + used, gate(True)), SYNC]
        if wrong == "gate-early":
            calls[-3:-1] = [calls[-2], SYNC]
        if wrong == "gate-left":
            calls[len(told)] = (first + used + 1 + len(told), gate(True))
        return calls

    def commit(self, safe):
        """Makes the entries after those that are safe so; raises Failed at the call that fails."""
        batch = self.entries[safe:]
        if not batch:
            return
        calls, second, used, number = [], self.second, self.used, self.batches
        room = used + bodies(len(batch)) + 2 + 2 * (wrong == "room-short")
        if room > self.shape.half:
            base = Register(self.base, self.entries[:safe]).base()
            calls, used = self.checkpoint_calls(base)
            second, number = not second, 1 + (len(base) + 62) // 63
        calls += self.append_calls(batch, second, used, number)
        for at, told in calls:
            if at is None:
                self.device.sync()
            else:
                self.device.write(at, told)
        self.second, self.used, self.batches = second, used + 1 + bodies(len(batch)), number + 1

    def turn(self):
        asks, self.asks = sorted(self.asks.items()), {}
        if self.is_broken:
            return ["turn FAULT 5"] + [f"{name(terminal)} {ask[0]} UNKNOWN" for terminal, ask in asks]
        safe = len(self.entries)
        answers = [self.decide(terminal, *ask) for terminal, ask in asks]
        accepted = len(self.entries) - safe
        try:
            self.commit(safe)
        except Failed:
            self.is_broken, self.doubt = True, safe
            return ["turn FAULT 1"] + [f"{name(terminal)} {ask[0]} UNKNOWN" for terminal, ask in asks]
        told = [f"{name(terminal)} {ask[0]} {answer}" for (terminal, ask), answer in zip(asks, answers)]
        return [f"turn {len(asks)} {accepted}"] + told

    def cut(self, word, byte=0):
        safe = self.entries[:self.doubt] if self.is_broken else self.entries
        allowed = [Register(self.base, safe).told(), Register(self.base, self.entries).told()]
        self.device.cut(word, byte)
        read = open_image(self.building, self.device.sectors)
        self.base, self.entries, self.second = read.base, read.entries, read.second
        self.used, self.batches = read.used, read.batches
        self.asks, self.is_broken, self.doubt, self.known = {}, False, None, (None, None)
        if wrong == "letter-lost" and word == "keep" and len(self.entries) > len(safe) and self.entries[:len(safe)] == safe:
            self.entries = safe
        if wrong != "place-survives":
            self.positions = {}
        if wrong is None:
            assert self.register().told() in allowed, "a cut left something else than the safe list or that with the batch"
        return [f"cut {len(self.register().rows)}"]


# Scripts and reports


def name(terminal):
    return chr(65 + terminal) if terminal < 16 else f"K{terminal - 16}"


def lines_of(text):
    told = text.split("\n")
    last = told.pop()
    told = [line[:-1] if line.endswith("\r") else line for line in told]
    return told + [last] if last else told


class Malformed(Exception):
    """A script's line of another form."""


def number_in(word, high, low=0):
    if not re.fullmatch("0|[1-9][0-9]{0,8}", word, re.ASCII) or not low <= int(word) <= high:
        raise Malformed
    return int(word)


def car_in(group, word):
    if not re.fullmatch("[A-P]", word) or ord(word) - 65 >= len(group.building.cars):
        raise Malformed
    return ord(word) - 65


def kiosk_in(group, word):
    kiosk = number_in(word, 46)
    if kiosk >= len(group.building.kiosks):
        raise Malformed
    return 16 + kiosk


def dir_in(word):
    if word not in ("up", "down"):
        raise Malformed
    return UP if word == "up" else DOWN


def asked(group, terminal, number, body):
    if terminal in group.asks:
        return [f"{name(terminal)} {number} WAITING"]
    group.asks[terminal] = (number, body)
    return []


def line_told(group, line):
    """What a line reports; the group is as the line leaves it."""
    words = line.split(" ")
    match (words[0], len(words)):
        case ("place", 4):
            car, floor, dir = car_in(group, words[1]), number_in(words[2], 63), dir_in(words[3])
            return asked(group, car, 0, (floor, dir, True))
        case ("call", 4 | 5):
            kiosk, number, floor = kiosk_in(group, words[1]), number_in(words[2], TOP_NUMBER), number_in(words[3], 63)
            return asked(group, kiosk, number, (floor, number_in(words[4], 15, 1) if words[4:] else 1))
        case ("stop", 5):
            car, number = car_in(group, words[1]), number_in(words[2], TOP_NUMBER)
            return asked(group, car, number, (number_in(words[3], 63), dir_in(words[4]), False))
        case ("turn", 1):
            return group.turn()
        case ("stops", 2):
            car = car_in(group, words[1])
            if group.is_broken:
                return ["stops FAULT 5"]
            if car not in group.positions:
                return [f"stops {words[1]} unplaced"]
            told = halts(group.register().of(car), group.positions[car])
            return [f"stops {words[1]}" + ("".join(f" {halt[0]}:{halt[1]}" for halt in told) or " -")]
        case ("cost", 3 | 4):
            kiosk, floor = kiosk_in(group, words[1]), number_in(words[2], 63)
            party = number_in(words[3], 15, 1) if words[3:] else 1
            if group.is_broken:
                return ["cost FAULT 5"]
            start = group.building.kiosks[kiosk - 16]
            if floor >= group.building.floors:
                return ["cost NO 1"]
            if floor == start:
                return ["cost NO 2"]
            costs = group.costs(start, floor, party)
            return ["cost" + ("".join(f" {chr(65 + car)}={cost}" for car, cost in costs) or " -")]
        case ("rows", 1):
            return ["rows FAULT 5"] if group.is_broken else group.register().lines()
        case ("fuse", 2):
            group.device.passing = number_in(words[1], 1_000_000) + (wrong == "fuse-one-more")
            return []
        case ("cut", 2) if words[1] in ("keep", "lose"):
            return group.cut(words[1])
        case ("cut", 3) if words[1] == "fill":
            return group.cut("fill", number_in(words[2], 255))
    raise Malformed


def begin(told):
    """The group and the lines of a script's bytes, or the one line that refuses it."""
    if len(told) > 1_048_576:
        return None, "TOO LONG"
    try:
        text = told.decode()
    except UnicodeDecodeError:
        return None, "NOT TEXT"
    lines = lines_of(text)
    if "---" not in lines:
        return None, "NO SCRIPT"
    at = lines.index("---")
    try:
        building = building_of("".join(line + "\n" for line in lines[:at]))
    except BadBuilding as fault:
        return None, "BUILDING " + " ".join(map(str, fault.args))
    return Group(building), lines[at + 1:]


def report(told):
    """Output, error and status of `liftd replay` for these bytes."""
    group, lines = begin(told)
    if group is None:
        return (lines + "\n").encode(), b"", 1
    out = []
    for place, line in enumerate(lines, 1):
        if not line or line.startswith("#"):
            continue
        try:
            out += line_told(group, line)
        except Malformed:
            out.append(f"BAD {place}")
            return "".join(it + "\n" for it in out).encode(), b"", 1
    return "".join(it + "\n" for it in out).encode(), b"", 0
