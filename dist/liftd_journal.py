"""A journal that is read beside the group that writes it: what it has at one moment, and what comes to it.

A group appends behind the gate that ends the chain of the picked half, and a checkpoint goes into the other half before that is
picked. So what stands in a chain stays until its half is written anew, two checkpoints later, and then its base has other bytes,
as numbers and counts only grow: a chain that is read twice the same, with the same pick before, between and after, is the journal
of one moment meanwhile. Nothing is locked, and nothing is written.
"""
import os
import time
from collections import namedtuple

import liftd_kit as kit
from liftd_kit import plain

MOST_READS = 1000  # of a chain that is written anew each time

Moment = namedtuple("Moment", "shape pick is_second chain sectors")
# What came: an entry, with the calls that boarded and those that left by it; another half that is picked; commands that weren't seen.
Found = namedtuple("Found", "entry boarded left")
Picked = namedtuple("Picked", "is_second")
Missed = namedtuple("Missed", "count")


class Anew(kit.Told):
    """Another journal stands there by now."""

    def __init__(self, path, why):
        super().__init__(f"{path}: {why}", 1)


class Image:
    """The file of an image. It isn't mapped into memory: what is mapped stays cached, and a start of a group reads what the disk holds
    by having it dropped."""

    def __init__(self, path):
        self.path = path
        try:
            self.file = open(path, "rb", opener=kit.waiting_for_nobody)
        except OSError as fault:
            raise kit.Told(f"{path}: {fault.strerror}") from None
        if not kit.is_plain(self.file):
            raise kit.Told(f"{path}: is no plain file")
        self.stat = os.fstat(self.file.fileno())

    def __len__(self):
        return self.stat.st_size // plain.SECTOR

    def __getitem__(self, at):
        try:
            told = os.pread(self.file.fileno(), plain.SECTOR, plain.SECTOR * at)
        except OSError as fault:
            raise kit.Told(f"{self.path}: {fault.strerror}") from None
        if len(told) != plain.SECTOR:
            raise kit.Told(f"{self.path}: ends within sector {at}")
        return told

    def is_there(self):
        """Whether this file still stands at its path."""
        try:
            now = os.stat(self.path)
        except OSError:
            return False
        return (now.st_dev, now.st_ino) == (self.stat.st_dev, self.stat.st_ino)

    def shape(self):
        try:
            return plain.read_stamp(self)
        except plain.Refused as fault:
            raise kit.Told(f"{self.path}: {fault.why}   (liftd: journal 2)", 1) from None


class Half:
    """The sectors of a half, of which those that were looked at are kept."""

    def __init__(self, image, shape, is_second):
        self.image, self.shape, self.first, self.seen = image, shape, 2 + shape.half * is_second, {}

    def __len__(self):
        return self.shape.half

    def __getitem__(self, at):
        if at not in self.seen:
            self.seen[at] = self.image[self.first + at]
        return self.seen[at]

    def is_as_seen(self, below):
        """Whether the sectors that were looked at are as they were; below a sector of the half alone."""
        return all(self.image[self.first + at] == told for at, told in self.seen.items() if at < below)


def is_second(pick):
    return pick[0] == plain.OPEN


def is_picked(image, pick):
    return is_second(image[0]) == is_second(pick)


def moment(image):
    """What the journal has at one moment."""
    for _ in range(MOST_READS):
        shape, pick = image.shape(), image[0]
        half = Half(image, shape, is_second(pick))
        chain = plain.read_chain(half)
        # (the gate that ends the chain may be opened meanwhile: it was closed when it was read)
        below = chain.end if chain.broken is None else len(half)
        if is_picked(image, pick) and half.is_as_seen(below) and is_picked(image, pick) and image.shape() == shape:
            if chain.broken is not None:
                end = half.first + chain.end
                raise kit.Told(f"{image.path}: broken at sector {end}: {chain.broken}   (liftd: journal 3 {end})", 1)
            return Moment(shape, pick, is_second(pick), chain, half.seen)
    raise kit.Told(f"{image.path}: is written faster than it is read")


def copied(now):
    """The sectors of an image that has just what the journal had at this moment."""
    first = 2 + now.shape.half * now.is_second
    nothing = bytes(plain.SECTOR)
    yield now.pick
    yield plain.stamp(now.shape)
    for at in range(2, 2 + 2 * now.shape.half):
        # (behind the closing gate a half may hold what a crash left there: no start reads it)
        yield now.sectors.get(at - first, nothing) if at - first < now.chain.end else nothing


class Call:
    """An open call, and when it was first seen, by a clock that nobody sets. `is_new` says whether it was seen to come, so that this
    is its time; else it is older."""

    def __init__(self, record, seen, is_new):
        self.kiosk, self.number, self.car, self.party = record.kiosk, record.number, record.car, record.party
        self.start, self.to, self.seen, self.is_new = record.start, record.to, seen, is_new
        self.aboard = isinstance(record, plain.Row) and record.aboard


class Calls:
    """The open calls, each terminal's last command and the count of done calls, as the records come."""

    def __init__(self):
        self.open, self.last, self.done = {}, {}, 0

    def take(self, record, is_new=False):
        """The calls that boarded by it, and those that left."""
        if isinstance(record, plain.Done):
            self.done = record.count
        elif isinstance(record, plain.Last):
            self.last[record.terminal] = (record.number, record.content)
        elif isinstance(record, plain.Stop):
            self.last[record.car] = (record.number, plain.Stopped(record.floor, record.dir))
            return self.stop(record)
        else:
            self.open[record.kiosk, record.number] = Call(record, time.monotonic(), is_new)
            if isinstance(record, plain.Allot):
                self.last[record.kiosk] = (record.number, plain.Letter(record.start, record.to, record.car, record.party))
        return [], []

    def stop(self, stop):
        of_car = [call for call in self.open.values() if call.car == stop.car]
        left = [call for call in of_car if call.aboard and call.to == stop.floor]
        boarded = [call for call in of_car if not call.aboard and call.start == stop.floor and plain.direction(call) == stop.dir]
        for call in left:
            del self.open[call.kiosk, call.number]
        for call in boarded:
            call.aboard = True
        self.done += len(left)
        return boarded, left

    def rows(self):
        return {key: (call.start, call.to, call.car, call.party, call.aboard) for key, call in self.open.items()}

    def is_as(self, other):
        return (self.rows(), self.last, self.done) == (other.rows(), other.last, other.done)

    def is_before(self, other):
        """Whether some terminal's number, or the count of done calls, is below that of the other."""
        return self.done < other.done or any(self.last.get(terminal, (0,))[0] < number for terminal, (number, _) in other.last.items())

    def commands(self, terminals):
        """How many commands of these terminals were accepted."""
        return sum(number for terminal, (number, _) in self.last.items() if terminal in terminals)


CARS, KIOSKS = range(16), range(16, 63)


def is_entry(record):
    return isinstance(record, (plain.Allot, plain.Stop))


class Follower:
    """Goes along a journal. `calls` has what it has come to, and `at` where in the half its chain ends."""

    def __init__(self, image):
        self.image, self.calls = image, Calls()
        now = moment(image)
        self.begin(now)
        for record in records_of(now.chain):
            self.calls.take(record)

    def begin(self, now):
        """Goes on behind this moment."""
        batches = now.chain.batches
        self.shape, self.is_second, self.at = now.shape, now.is_second, now.chain.end
        self.number = len(batches) + 1
        self.version = batches[-1].version if batches else 1
        behind = next((batch.at for batch in batches[1:] if all(map(is_entry, batch.records))), now.chain.end)
        last = batches[-1].at if batches else 0
        # What a checkpoint into this half changes, and what a copy that is brought back does.
        self.base = {at: told for at, told in now.sectors.items() if at < behind}
        self.last = {at: told for at, told in now.sectors.items() if last <= at < now.chain.end}

    def is_written_anew(self):
        half = Half(self.image, self.shape, self.is_second)
        return any(half[at] != told for sectors in (self.base, self.last) for at, told in sectors.items())

    def next_batch(self):
        """The batch at the end of the chain with its sectors, if there is one by now."""
        half = Half(self.image, self.shape, self.is_second)
        if half[self.at][0] != plain.OPEN:
            return None
        try:
            batch = plain.read_batch(half, self.at, self.number, self.version)
        except plain.Broken:
            moment(self.image)  # (which tells it, if that is so)
            return None
        return (batch, half.seen) if half.is_as_seen(len(half)) else None

    def poll(self):
        """What came since the last time, each in its order."""
        if self.image.shape() != self.shape:
            raise Anew(self.image.path, "was made anew for another building")
        while True:
            batch, sectors = self.next_batch() or (None, None)
            if self.is_written_anew() or batch is not None and not all(map(is_entry, batch.records)):
                yield from self.come_to_other(moment(self.image))
            elif batch is not None:
                self.at, self.number, self.version = self.at + 1 + plain.bodies(len(batch.records)), self.number + 1, batch.version
                self.base, self.last = self.base or sectors, sectors
                yield from self.taken(batch.records)
            elif is_second(self.image[0]) != self.is_second:
                # (a batch that came before the other half was picked is read first)
                if self.next_batch() is None and not self.is_written_anew():
                    yield from self.come_to_other(moment(self.image))
            else:
                return

    def come_to_other(self, now):
        """Goes on in a half that was written since, whose base may hold what wasn't seen."""
        records = records_of(now.chain)
        base = Calls()
        behind = next((at for at, record in enumerate(records) if is_entry(record)), len(records))
        for record in records[:behind]:
            base.take(record)
        if base.is_before(self.calls):
            raise Anew(self.image.path, "holds an older journal, or one that was made anew")
        missed = base.commands(range(63)) - self.calls.commands(range(63))
        is_whole = self.calls.is_as(base)
        for key in base.open.keys() & self.calls.open.keys():
            base.open[key].seen, base.open[key].is_new = self.calls.open[key].seen, self.calls.open[key].is_new
        self.begin(now)
        self.calls = base
        yield Picked(now.is_second)
        if not is_whole:
            yield Missed(missed)
        yield from self.taken(records[behind:])

    def taken(self, entries):
        for entry in entries:
            yield Found(entry, *self.calls.take(entry, True))


def records_of(chain):
    return [record for batch in chain.batches for record in batch.records]
