"""A record of the lines between a group and its terminals, as `proxy.py --record` writes it, and an order of its commands that gives
the answers which were given.

A record tells when a line was said and when its answer came, and not when it was decided: of commands that were under way together
any may have been first. `Search` goes along the record and decides each command when its answer comes, by the rules of
`plain_group.py`; where that gives another answer it decides others that were under way before it, until all answers come out, or no
order is left.
"""
import re
from collections import namedtuple

import liftd_kit as kit
from liftd_kit import plain

LINE = re.compile(r"(\S+) (-|K\d+|[A-P]) (\d+) ([><=.!#])(?: (.*))?")
ROW = re.compile(r"([A-P]) K(\d+) (\d+) (\d+) (\d+) (waiting|aboard)(?: x(\d+))?")
NUMBER = "(0|[1-9][0-9]*)"
WORDS = {
    "call": re.compile(f"CALL {NUMBER} {NUMBER}(?: {NUMBER})?"),
    "place": re.compile(f"PLACE {NUMBER} (up|down)"),
    "stop": re.compile(f"STOP {NUMBER} {NUMBER} (up|down)"),
}
WINDOW = 400  # decisions back from where the answers differ: an order that begins earlier isn't looked for
MOST_TRIES = 30_000  # of decisions, behind the furthest answer that came out


class Command:
    """A line that liftd was told. Its answer is none where none was heard that says what was decided."""

    def __init__(self, line, time, terminal, text, kind, number, body):
        self.line, self.time, self.terminal, self.text, self.kind, self.number, self.body = line, time, terminal, text, kind, number, body
        self.answer, self.is_first, self.was_unknown, self.is_in = None, False, False, False

    def is_accepted(self):
        return self.kind != "place" and self.answer is not None and self.answer.split()[0] in ("CAR", "NEXT", "IDLE")


# What a record comes to: a command is under way; its answer came; a greeting, and whether liftd was started anew before it
Asked, Answered = namedtuple("Asked", "command"), namedtuple("Answered", "command")
NONE, MAYBE, SURE = "none", "maybe", "sure"


class Greeted:
    """A greeting. That liftd wasn't started anew before it a later answer may tell."""

    def __init__(self, line, terminal, last, letter, start, is_first):
        self.line, self.terminal, self.last, self.letter, self.start, self.is_first = line, terminal, last, letter, start, is_first


def terminal_of(name):
    return 16 + int(name[1:]) if name[0] == "K" and name[1:] else ord(name) - 65


def command_of(line, time, terminal, text):
    """The command that a line spells, none where liftd answers BAD."""
    kinds = ("call",) if terminal >= 16 else ("place", "stop")
    for kind in kinds:
        if told := WORDS[kind].fullmatch(text):
            words = told.groups()
            number, rest = (0, words) if kind == "place" else (int(words[0]), words[1:])
            floor = int(rest[0])
            if kind == "call":
                body = (floor, int(rest[1] or 1))
            else:
                body = (floor, plain.UP if rest[1] == "up" else plain.DOWN, kind == "place")
            if number > plain.TOP_NUMBER or floor > 999 or kind == "call" and not 1 <= body[1] <= 15:
                return None
            return Command(line, time, terminal, text, kind, number, body)
    return None


class Connection:
    """Its lines that aren't answered yet, each with the command that it spells; the line of its greeting; whether liftd had been ended when
    it began."""

    def __init__(self, terminal, is_greeted=False, is_behind_end=False):
        self.terminal, self.is_greeted, self.asked, self.ends_well = terminal, is_greeted, [], False
        self.greeted_at, self.is_behind_end = 0, is_behind_end


class Reader:
    """The events of a record's lines, and what it says beside them."""

    def __init__(self):
        self.events, self.open, self.known, self.notes = [], {}, set(), []
        self.policy, self.first_time, self.is_broken_off, self.failed, self.unknown = None, None, False, False, []
        self.first_unknown, self.left_out, self.waiting, self.in_use, self.gap = None, 0, {}, [], None
        self.unsure = []  # the greetings before which liftd may have been started anew

    def read(self, line, text, until):
        """Whether the next line is to be read too."""
        told = LINE.fullmatch(text)
        if told is None:
            return self.breaks_off(line, "is no whole line of a record")
        time, name, number, mark, words = told.groups()
        if until is not None and time >= until:
            return False
        self.first_time = self.first_time or time
        words = words or ""
        if mark == "#":
            return self.head(line, words)
        if mark == "!":
            self.failed = True
        elif mark == ">":
            self.said(line, time, terminal_of(name), number, words)
        elif mark == "<":
            self.heard(line, number, words, terminal_of(name))
        elif mark == ".":
            self.ended(number, words)
        return True

    def breaks_off(self, line, why):
        self.notes.append(f"line {line}: {why}: nothing after it is replayed")
        self.is_broken_off = True
        return False

    def head(self, line, words):
        what, _, policy = words.partition(", policy ")
        if what.startswith("lacks"):
            return self.breaks_off(line, f"the record {what}, which couldn't be written")
        if what == "begins":
            for number in list(self.open):
                self.ended(number, "")
        self.policy = policy if policy != "not told" else self.policy
        return True

    def said(self, line, time, terminal, number, words):
        if number not in self.open and re.fullmatch("KIOSK [0-9]+|CAR [A-P]", words):
            self.open[number] = Connection(terminal, is_behind_end=self.failed)
            return
        # (a record that goes on has connections that began before it)
        connection = self.open.setdefault(number, Connection(terminal, is_greeted=True))
        command = command_of(line, time, terminal, words)
        connection.asked.append((line, command))
        if len(connection.asked) == 1 and connection.is_greeted:
            self.asks(command)

    def asks(self, command):
        if command is None:
            self.left_out += 1
            return
        command.is_first = command.terminal not in self.known
        if self.first_unknown is None:
            self.waiting.setdefault(command.terminal, []).append(command)
            self.events.append(Asked(command))

    def heard(self, line, number, words, terminal):
        connection = self.open.get(number) or self.open.setdefault(number, Connection(terminal, is_greeted=True))
        if not connection.is_greeted:
            self.greeted(line, number, connection, words.split())
            return
        self.failed = False
        asked_at, command = connection.asked.pop(0) if connection.asked else (0, None)
        self.stood(connection.greeted_at, asked_at)
        if words in ("LATE", "SPENT"):
            connection.ends_well = True
        elif words == "UNKNOWN":
            self.unknown.append(command)
            self.first_unknown, self.gap = self.first_unknown or line, None
            if command:
                command.was_unknown = True
        elif command is not None:
            command.answer = words
            if command in self.waiting.get(terminal, ()):
                self.waiting[terminal].remove(command)
            if command.is_accepted():
                self.known.add(terminal)
            if self.gap is not None:  # after UNKNOWN nothing else is answered before liftd is started again
                self.gap.start = SURE
                self.first_unknown = self.gap = None
            self.events.append(Answered(command))
        if words == "SPENT" and Asked(command) in self.events[-100:]:
            self.events.remove(Asked(command))
        if connection.asked and not connection.ends_well:
            self.asks(connection.asked[0][1])

    def stood(self, since, until):
        """Where a connection was greeted in one line and answered what it said in the other, liftd wasn't started anew between them. (That
        its end isn't told yet doesn't say so.)"""
        later = []
        while self.unsure and self.unsure[-1].line > since:
            greeting = self.unsure.pop()
            if greeting.line > until:
                later.insert(0, greeting)
                continue
            greeting.start = NONE
            if greeting is self.gap:
                self.gap = None
        self.unsure += later

    def greeted(self, line, number, connection, words):
        if words[:1] != ["READY"]:
            connection.ends_well = True  # BUSY, BAD or LATE
            return
        others = any(it.is_greeted for it in self.open.values())
        start = SURE if self.failed and connection.is_behind_end and not others else MAYBE
        terminal, last = connection.terminal, int(words[1])
        if start == SURE:
            self.first_unknown = self.gap = None
        for command in self.waiting.pop(terminal, ()):
            command.is_in = 1 <= command.number <= last
        is_first = terminal not in self.known
        if is_first and last:
            self.in_use.append(terminal)
        self.known.add(terminal)
        connection.is_greeted, connection.greeted_at, self.failed = True, line, False
        greeting = Greeted(line, terminal, last, words[2] if words[2:] else None, start, is_first)
        self.events.append(greeting)
        self.unsure.append(greeting)
        if start == MAYBE and self.first_unknown is not None and self.gap is None:
            self.gap = greeting
        if connection.asked:  # that was said before the greeting had come
            self.asks(connection.asked[0][1])

    def ended(self, number, by):
        connection = self.open.pop(number, None)
        if connection and connection.is_greeted and by == "liftd" and not connection.ends_well:
            # (where others were greeted since, liftd may have been started anew before that: who is silent hears of it late)
            self.failed |= not self.unsure or self.unsure[-1].line <= connection.greeted_at


State = namedtuple("State", "base positions")  # the register as a checkpoint's records; of each car that was placed, where it is


class Rules:
    """The rules of one decision, over a state that is handed in."""

    def __init__(self, building):
        self.group = plain.Group(building)

    def begin(self, rows=()):
        return State((*sorted(rows, key=lambda row: row.car), plain.Done(0)), ())

    def enter(self, state):
        group = self.group
        group.base, group.entries, group.known, group.positions = list(state.base), [], (None, None), dict(state.positions)
        return group.register()

    def decide(self, state, command):
        """The answer, and the state that it leaves. What was said before the record began is taken as it was answered."""
        last = self.enter(state).last.get(command.terminal)
        if command.is_first and command.is_accepted() and last is None and command.number > 1:
            return self.decide(self.numbered(state, command.terminal, command.number - 1), command)
        is_before = command.kind != "place" and (
            command.is_first and not command.is_accepted() or last is not None and last[1] is None and command.number == last[0])
        if is_before and command.kind == "call" or is_before and not command.is_accepted():
            return command.answer, state
        body = (*command.body[:2], True) if is_before else command.body
        answer = self.group.decide(command.terminal, 0 if is_before else command.number, body)
        base = state.base if not self.group.entries else tuple(self.group.register().base())
        return answer, State(base, tuple(sorted(self.group.positions.items())))

    def numbered(self, state, terminal, number):
        """The state with this last number of a terminal; which command that was is known where its call is open."""
        open_ones = [row for row in state.base if isinstance(row, plain.Row) and (row.kiosk, row.number) == (terminal, number)]
        content = plain.Letter(*open_ones[0][2:6]) if open_ones else None
        others = [record for record in state.base if not isinstance(record, plain.Last)]
        last = [record for record in state.base if isinstance(record, plain.Last)]
        last = sorted([*last, plain.Last(terminal, number, content)] if number else last, key=lambda record: record.terminal)
        return state._replace(base=(*others[:-1], *last, others[-1]))

    def last_of(self, state, terminal):
        """A terminal's last number, and of a kiosk its letter, where that is known."""
        for record in state.base:
            if isinstance(record, plain.Last) and record.terminal == terminal:
                car = record.content.car if isinstance(record.content, plain.Letter) else None
                return record.number, None if car is None else chr(65 + car)
        return 0, None

    def other_policies(self, state, command):
        """Which other policy gives the letter that was given."""
        register = self.enter(state)
        start, (to, party) = self.group.building.kiosks[command.terminal - 16], command.body
        cars = self.group.eligible(register, start, to, party)
        waits = {car: self.wait(register.of(car), self.group.positions[car], start, to, party) for car in cars}
        fewest = min(cars, key=lambda car: (register.persons(car), car), default=None)
        first = min(cars, key=lambda car: (waits[car], car), default=None)
        return [name for name, car in (("fewest", fewest), ("wait", first)) if car is not None and command.answer == f"CAR {chr(65 + car)}"]

    def wait(self, rows, position, start, to, party):
        """When a car that takes this call would stand where it starts."""
        new, building = plain.Row(None, None, start, to, None, party, False), self.group.building
        at, time, wanted = position[0], 0, (plain.call_pass(new, position), start)
        for place, halt in enumerate(plain.halts([*rows, new], position)):
            time += building.flight[at][halt[1]] + (building.door if place else 0)
            at = halt[1]
            if halt == wanted:
                return time
        raise AssertionError


# A step of the order that was found: a command, what the rules answer, and whether it was decided before one that was answered
# earlier; a start of liftd, with so many open calls, and whether connections showed it; the first number of a
# terminal
Decided, Started, Numbered = namedtuple("Decided", "command answer is_early"), namedtuple("Started", "line open is_seen"), namedtuple("Numbered", "terminal last")


class Frame:
    """Where the search has come to: the next event, the state, what is under way, what was decided before its answer, and what is left
    to try from here."""

    def __init__(self, before, at, state, pending, early, steps):
        self.before, self.at, self.state, self.pending, self.early, self.steps, self.left = before, at, state, pending, early, steps, None

    def path(self):
        """All steps up to here."""
        frames, frame = [], self
        while frame:
            frames.append(frame.steps)
            frame = frame.before
        return [step for steps in reversed(frames) for step in steps]


class Search:
    def __init__(self, rules, events):
        self.rules, self.events = rules, events
        self.furthest, self.why, self.best, self.tries, self.failed = -1, None, None, 0, set()

    def run(self, state):
        """The steps of an order in which all answers come out; or those up to the first answer that doesn't, and why."""
        stack = [self.advanced(Frame(None, 0, state, (), frozenset(), ()))]
        while stack:
            frame = stack[-1]
            if frame.at == len(self.events):
                return frame.path(), None
            if frame.left is None:
                frame.left = iter(self.choices(frame))
                if len(stack) > WINDOW:
                    stack[-WINDOW - 1].left = iter(())
            made = next((it for it in (self.made(frame, choice) for choice in frame.left) if it), None)
            if made:
                stack.append(made)
            else:
                self.failed.add(self.key(frame))
                stack.pop()
        return self.best.path(), self.why

    def key(self, frame):
        return frame.at, frame.state, frozenset(it.line for it in frame.pending)

    def advanced(self, frame):
        """Goes along to the next event at which something has to be decided."""
        while frame.at < len(self.events):
            event = self.events[frame.at]
            if isinstance(event, Asked):
                frame.pending = (*frame.pending, event.command)
            elif isinstance(event, Answered) and event.command.line in frame.early:
                frame.early -= {event.command.line}
            else:
                break
            frame.at += 1
        return frame

    def choices(self, frame):
        """What may come next, the likeliest first: the command that is answered, or another one that is under way."""
        event, others = self.events[frame.at], sorted(frame.pending, key=lambda it: it.terminal)
        if isinstance(event, Answered):
            return [event.command, *(it for it in others if it is not event.command)]
        own = [it for it in others if it.terminal == event.terminal and not it.was_unknown]
        greet, start = ([] if own or event.start == SURE else [NONE]), ([] if event.start == NONE else [SURE])
        if event.start == NONE or not start:
            return [*own, *greet, *(it for it in others if it not in own)]
        are_in = [it for it in others if it.is_in and it.answer is None]
        if event.start == SURE:
            return [*are_in[:1], *start, *(it for it in others if it not in are_in[:1])]
        return [*own, *greet, *start, *(it for it in others if it not in own)]

    def made(self, frame, choice):
        """The frame behind a choice; none where an answer doesn't come out, or where that was tried."""
        self.tries += 1
        if self.tries > MOST_TRIES:
            return None
        made = self.greeted(frame, choice) if choice in (NONE, SURE) else self.decided(frame, choice)
        if made is None:
            return None
        made = self.advanced(made)
        if made.at > self.furthest:
            self.furthest, self.tries, self.why = made.at, 0, None
            self.failed.clear()
        return None if self.key(made) in self.failed else made

    def decided(self, frame, command):
        event = self.events[frame.at]
        is_answered = isinstance(event, Answered) and event.command is command
        answer, state = self.rules.decide(frame.state, command)
        if command.answer not in (None, answer):
            if is_answered:
                self.blame(frame, command, answer)
            return None
        pending = tuple(it for it in frame.pending if it is not command)
        early = frame.early if is_answered or command.answer is None else frame.early | {command.line}
        return Frame(frame, frame.at + is_answered, state, pending, early, (Decided(command, answer, not is_answered),))

    def greeted(self, frame, choice):
        event, state, pending, steps = self.events[frame.at], frame.state, frame.pending, []
        if choice == SURE:
            state, pending = state._replace(positions=()), ()
            steps.append(Started(event.line, sum(isinstance(it, plain.Row) for it in state.base), event.start == SURE))
        last, letter = self.rules.last_of(state, event.terminal)
        if event.is_first:
            if last == 0:
                state = self.rules.numbered(state, event.terminal, event.last)
            steps.append(Numbered(event.terminal, event.last))
        elif (last, letter or event.letter) != (event.last, event.letter):
            self.blame(frame, event, f"READY {last}" + (f" {letter}" if letter else ""))
            return None
        return Frame(frame, frame.at + 1, state, pending, frame.early, tuple(steps))

    def blame(self, frame, what, answer):
        """Keeps the first answer that doesn't come out behind the furthest one that does."""
        if frame.at >= self.furthest and self.why is None:
            self.furthest = frame.at
            self.best, self.why = frame, (what, answer, frame.state)


def rows_of(text, building):
    """The open calls that `liftd show` printed."""
    first, *lines = text.splitlines() or [""]
    if not re.fullmatch("rows [0-9]+ [0-9]+", first) or len(lines) != int(first.split()[1]):
        raise kit.Told("isn't what `liftd show` prints")
    rows = []
    for line in lines:
        told = ROW.fullmatch(line)
        if told is None:
            raise kit.Told(f"{line!r} is no open call")
        car, kiosk, number, start, to, state, party = told.groups()
        row = plain.Row(16 + int(kiosk), int(number), int(start), int(to), ord(car) - 65, int(party or 1), state == "aboard")
        if not plain.is_allowed_call(building, row.kiosk, row):
            raise kit.Told(f"{line!r} is no call in this building")
        rows.append(row)
    return rows
