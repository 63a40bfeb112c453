#!/usr/bin/env python3
"""Gives each terminal of a group a port of its own, and says itself for which terminal a connection speaks.

Usage: proxy.py [--building TEXT [--queue] [--walk SECONDS]] [--record FILE [--policy NAME]] SERVER ADDRESS PORT=TERMINAL[@FROM] ..
for example: proxy.py 405 10.0.0.1 4100=K0@10.0.0.20 4101=K1@10.0.0.21 4200=A@10.0.0.30

SERVER is liftd's port on 127.0.0.1, ADDRESS where the proxy listens. Who connects to 10.0.0.1:4100 is kiosk 0, and nobody else:
the proxy writes the first line. Where FROM is told, only that address is let in there. Nothing is encrypted.
A terminal that is gone without a word is found out after 25 seconds, and its connection to liftd closed.

With the building's text it reads the lines that pass, and so knows who has a letter of which car, of the calls since its start:

--queue  No more persons hold a letter than three quarters of all places; a call beyond is answered `WAIT <ticket>`. Its kiosk asks
         each second `CALL <number> <floor> <party> <ticket>`, with the number that is next then, until it is answered as liftd
         answers; in between it may ask for other passengers. Letters are given in the order of the tickets. A ticket that
         isn't asked for within ten seconds is given up.
--walk   A car's STOP is passed on only once the passengers who were given its letter at that floor can have walked there, after 20
         seconds at the latest. The car holds its doors until its STOP is answered.

--record  Writes each line that liftd is told and answers into FILE, its owner's alone, before it is passed on:
          `<time> <terminal> <connection> <mark> <line>`, where the mark is > for what liftd is told, < for what it answers, = for what
          the proxy answers itself, . for the end of a connection, by `terminal` or by `liftd`, and ! where nobody listens. `liftd-script`
          makes a script of it. At 64 MiB FILE becomes FILE.1, in place of the one from before, and is begun anew; so there are 128 MiB
          at most. Where it can't be written the lines pass all the same, and it tells later how many it lacks.
--policy  That of the group, which the record's head tells: a script decides by etd alone.
"""
import argparse
import asyncio
import datetime
import os
import re
import socket
import sys
import time
import tomllib

SHARE, FORGET_S, HOLD_S = 0.75, 10, 20
MOST_BYTES, MOST_SHOWN = 64 * 1024 * 1024, 80  # of a record's file, and of a line in it


class Call:
    """A call that has a letter; `given` is when."""

    def __init__(self, start, to, party, given):
        self.start, self.to, self.party, self.given, self.is_aboard = start, to, party, given, False
        self.dir = "up" if to > start else "down"


class Front:
    """What a proxy knows by the lines that pass, and what it does with them. It has no clock: each moment is told, in seconds."""

    def __init__(self, building, is_queue=False, walk=0.0):
        self.kiosks, self.is_queue, self.walk = building["kiosks"], is_queue, walk
        self.most = SHARE * sum(car["places"] for car in building["cars"])
        self.calls = {chr(65 + car): [] for car in range(len(building["cars"]))}
        floors = range(building["floors"])
        self.serves = [set(car.get("serves", floors)) for car in building["cars"]]
        self.last, self.given_out = {}, 0
        self.tickets, self.used = {}, {}  # each ticket's party, and when it was asked for last; each kiosk's last one

    def has(self, terminal):
        return int(terminal[1:]) < len(self.kiosks) if terminal[0] == "K" and terminal[1:] else terminal in self.calls

    def persons(self):
        return sum(call.party for calls in self.calls.values() for call in calls)

    def asked(self, terminal, words, now):
        """The line to pass on and the moment to do so, or None and the answer."""
        if words[0] == "CALL" and self.is_queue and 3 <= len(words) <= 5 and all(map(str.isdigit, words[1:])):
            return self.call(terminal, words, now)
        if words[0] == "STOP" and self.walk and len(words) == 4 and words[2].isdigit():
            return " ".join(words), self.held(terminal, int(words[2]), words[3], now)
        return " ".join(words), now

    def call(self, terminal, words, now):
        """A call passes where there is room for it and for all whose tickets are older."""
        line, party, ticket = " ".join(words[:4]), int(words[3]) if len(words) > 3 else 1, int(words[4]) if len(words) > 4 else None
        self.tickets = {it: told for it, told in self.tickets.items() if now - told[1] <= FORGET_S or it == ticket}
        if int(words[1]) <= self.last.get(terminal, 0):
            return line, now  # asked again by its number: liftd answers it as before
        if ticket not in self.tickets:
            self.given_out += 1
            ticket = self.given_out
        before = sum(told[0] for it, told in self.tickets.items() if it < ticket)
        if self.persons() + before + party <= self.most:
            self.tickets.pop(ticket, None)
            self.used[terminal] = (ticket, party)
            return line, now
        self.tickets[ticket] = (party, now)
        return None, f"WAIT {ticket}"

    def held(self, letter, floor, dir, now):
        """When all who were given this letter for this stop can be there."""
        there = [call.given + self.walk for call in self.calls[letter] if not call.is_aboard and (call.start, call.dir) == (floor, dir)]
        return max([now, *there])

    def answered(self, terminal, words, answer, now):
        """What has come of a line that was passed on: the answer to tell. Who finds no car free after all keeps his ticket."""
        told = " ".join(answer)
        if answer == ["NO", "3"] and terminal in self.used and self.is_served(terminal, words):
            ticket, party = self.used.pop(terminal)
            self.tickets[ticket] = (party, now)
            return f"WAIT {ticket}"
        if words[0] not in ("CALL", "STOP") or answer[:1] not in (["CAR"], ["NEXT"], ["IDLE"]):
            return told
        number = int(words[1])
        if number <= self.last.get(terminal, 0):
            return told
        self.last[terminal] = number
        if words[0] == "CALL":
            party = int(words[3]) if len(words) > 3 else 1
            self.calls[answer[1]].append(Call(self.kiosks[int(terminal[1:])], int(words[2]), party, now))
            return told
        floor, dir = int(words[2]), words[3]
        self.calls[terminal] = [call for call in self.calls[terminal] if not (call.is_aboard and call.to == floor)]
        for call in self.calls[terminal]:
            call.is_aboard |= (call.start, call.dir) == (floor, dir)
        return told

    def is_served(self, terminal, words):
        return any({self.kiosks[int(terminal[1:])], int(words[2])} <= floors for floors in self.serves)


class Record:
    """A file of the lines that pass. Its times go on as the system's clock did when it began: no later one is before an earlier one."""

    def __init__(self, path, policy):
        self.path, self.policy, self.file, self.missing, self.is_torn = path, policy, None, 0, False
        self.ahead, self.connections = time.time() - time.monotonic(), 0
        self.open("begins")

    def open(self, what):
        opened = os.open(self.path, os.O_WRONLY | os.O_CREAT | os.O_APPEND, 0o600)
        if self.file is not None:
            os.close(self.file)
        self.file = opened
        self.size = os.fstat(self.file).st_size
        self.put(f"- 0 # {what}, policy {self.policy or 'not told'}")

    def put(self, words):
        now = datetime.datetime.fromtimestamp(time.monotonic() + self.ahead).astimezone().isoformat(timespec="microseconds")
        told = f"{chr(10) * self.is_torn}{now} {words}\n".encode()
        written = os.write(self.file, told)
        self.size += written
        self.is_torn = written < len(told)
        if self.is_torn:
            raise OSError(f"{self.path}: no room")

    def write(self, words):
        """A line; where it can't be written it is missing, which the next one that can be tells."""
        try:
            if self.size >= MOST_BYTES:
                os.replace(self.path, f"{self.path}.1")
                self.open("goes on")
            if self.missing:
                self.put(f"- 0 # lacks {self.missing} lines")
                self.missing = 0
            self.put(words)
        except OSError as fault:
            if not self.missing:
                print(f"proxy.py: the record can't be written: {fault}", file=sys.stderr, flush=True)
            self.missing += 1


class Passing:
    """What a connection tells the record, where there is one: whole lines, as they pass."""

    def __init__(self, record, terminal):
        self.record, self.terminal, self.begun = record, terminal, {">": b"", "<": b""}
        if record:
            record.connections += 1
            self.number = record.connections

    def tell(self, mark, text=""):
        if self.record:
            self.record.write(f"{self.terminal} {self.number} {mark} {text}".rstrip())

    def pass_by(self, mark, piece):
        if not self.record:
            return
        *lines, rest = (self.begun[mark] + piece).split(b"\n")
        self.begun[mark] = rest[:MOST_SHOWN]
        for line in lines:
            text = line[:MOST_SHOWN].decode("ascii", "backslashreplace").removesuffix("\r")
            self.tell(mark, "".join(it if it.isprintable() else f"\\x{ord(it):02x}" for it in text))


def first_line(terminal):
    """What a connection of this terminal begins with."""
    if not re.fullmatch("K([0-9]|[1-3][0-9]|4[0-6])|[A-P]", terminal):
        sys.exit(f"proxy.py: a terminal is K0 to K46 or A to P, and not {terminal}")
    return f"KIOSK {terminal[1:]}\n" if len(terminal) > 1 else f"CAR {terminal}\n"


def probed(writer):
    """Has the system find out a side that is gone: after 10 s of silence it asks every 5 s, and gives up at the third."""
    stream = writer.get_extra_info("socket")
    stream.setsockopt(socket.SOL_SOCKET, socket.SO_KEEPALIVE, 1)
    for option, value in ((socket.TCP_KEEPIDLE, 10), (socket.TCP_KEEPINTVL, 5), (socket.TCP_KEEPCNT, 3), (socket.TCP_USER_TIMEOUT, 25_000)):
        stream.setsockopt(socket.IPPROTO_TCP, option, value)


async def pass_on(reader, writer, mark, passing):
    """Passes on what one side says, and its end."""
    while piece := await reader.read(4096):
        passing.pass_by(mark, piece)
        writer.write(piece)
        await writer.drain()
    writer.write_eof()


class Answers:
    """What liftd answers. It says nothing that nobody asked: what comes by itself is the end of its session."""

    def __init__(self, from_server):
        self.from_server, self.first = from_server, None
        self.await_next()

    def await_next(self):
        self.first = asyncio.ensure_future(self.from_server.read(1))
        self.first.add_done_callback(lambda read: read.cancelled() or read.exception())

    async def line(self):
        line = await self.first + await self.from_server.readline()
        self.await_next()
        return line

    async def unless_ended(self, wanted):
        """What is waited for, or None where liftd ends its session before."""
        wanted = asyncio.ensure_future(wanted)
        await asyncio.wait([wanted, self.first], return_when=asyncio.FIRST_COMPLETED)
        if not wanted.done():
            wanted.cancel()
            return None
        return wanted.result()


async def pass_lines(reader, writer, answers, to_server, terminal, front, passing):
    """Passes on a line at a time, as the front has it, and its answer. A greeting tells the number that is in. Who ended it."""
    greeting = await answers.line()
    passing.pass_by("<", greeting)
    writer.write(greeting)
    if not greeting.startswith(b"READY "):
        return "liftd"  # after BUSY, LATE or BAD
    front.last[terminal] = int(greeting.split()[1])
    while (line := await answers.unless_ended(reader.readline())) and line.endswith(b"\n"):
        words = line.decode("ascii", "replace").rstrip("\r\n").split(" ")
        begun = time.monotonic()
        passed, told = front.asked(terminal, words, begun)
        while passed is not None and (left := min(told, begun + HOLD_S) - time.monotonic()) > 0:
            if not await answers.unless_ended(asyncio.sleep(left, True)):  # (others may be given this letter meanwhile)
                return "liftd"
            passed, told = front.asked(terminal, words, time.monotonic())
        if passed is None:
            passing.tell("=", f"{line.decode('ascii', 'replace').rstrip()}: {told}")
            writer.write(told.encode() + b"\n")
            continue
        said = passed.encode("ascii", "replace") + b"\n"
        passing.pass_by(">", said)
        to_server.write(said)
        answer = await answers.line()
        passing.pass_by("<", answer)
        if not answer:
            return "liftd"
        told = front.answered(terminal, words, answer.decode().split(), time.monotonic())
        writer.write(told.encode() + b"\n")
        await writer.drain()
    return "liftd" if line is None else "terminal"


async def joined_by_lines(reader, writer, from_server, to_server, terminal, front, passing):
    """A terminal's connection, line by line, until one side is gone. Who ended it."""
    answers = Answers(from_server)
    try:
        return await pass_lines(reader, writer, answers, to_server, terminal, front, passing)
    except (OSError, ValueError):  # a side is gone, or has said a line without an end
        return "liftd" if from_server.at_eof() or from_server.exception() else "terminal"
    finally:
        answers.first.cancel()


async def joined(reader, writer, from_server, to_server, passing):
    """A terminal's connection, until one side is gone or liftd has ended its session. Who ended it."""
    asks = asyncio.create_task(pass_on(reader, to_server, ">", passing))
    answers = asyncio.create_task(pass_on(from_server, writer, "<", passing))
    asks.add_done_callback(lambda ended: (ended.cancelled() or ended.exception()) and answers.cancel())
    await asyncio.wait([answers])
    is_by_liftd = not asks.done() and (from_server.at_eof() or from_server.exception())
    asks.cancel()
    await asyncio.gather(asks, answers, return_exceptions=True)
    return "liftd" if is_by_liftd else "terminal"


async def connected(reader, writer, server, terminal, front, record):
    """A terminal has connected: so it is joined with liftd, which is told for whom it speaks."""
    probed(writer)
    passing = Passing(record, terminal)
    try:
        from_server, to_server = await asyncio.open_connection("127.0.0.1", server)
    except OSError:
        passing.tell("!")
        writer.close()  # liftd starts again: the terminal connects again
        return
    first = first_line(terminal).encode()
    passing.pass_by(">", first)
    to_server.write(first)
    if front:
        by = await joined_by_lines(reader, writer, from_server, to_server, terminal, front, passing)
    else:
        by = await joined(reader, writer, from_server, to_server, passing)
    passing.tell(".", by)
    writer.close()
    to_server.close()


async def listen(server, address, terminals, front, record):
    here = set()  # (the loop itself forgets a task that waits for a stream, once the terminal has said its last)
    for word in terminals:
        parts = re.fullmatch("([0-9]+)=([^@]+)(?:@(.+))?", word)
        if not parts:
            sys.exit(f"proxy.py: {word} isn't PORT=TERMINAL or PORT=TERMINAL@FROM")
        port, terminal, only = int(parts[1]), parts[2], parts[3]
        first_line(terminal)
        if front and not front.has(terminal):
            sys.exit(f"proxy.py: the building has no {terminal}")

        async def taken(reader, writer, terminal=terminal, only=only):
            if only not in (None, writer.get_extra_info("peername")[0]):
                writer.close()
                return
            here.add(asyncio.current_task())
            try:
                await connected(reader, writer, server, terminal, front, record)
            finally:
                here.discard(asyncio.current_task())

        await asyncio.start_server(taken, address, port)
    print("passing on", *terminals, flush=True)
    await asyncio.Event().wait()


def words_of():
    usage = next(line for line in __doc__.split("\n") if line.startswith("Usage: "))
    about = {"description": __doc__.replace(f"{usage}\n", ""), "formatter_class": argparse.RawDescriptionHelpFormatter}
    words = argparse.ArgumentParser(usage=usage.removeprefix("Usage: "), **about)
    words.add_argument("--building")
    words.add_argument("--queue", action="store_true")
    words.add_argument("--walk", type=float, default=0.0)
    words.add_argument("--record")
    words.add_argument("--policy", choices=("etd", "fewest", "wait"))
    words.add_argument("server", type=int)
    words.add_argument("address")
    words.add_argument("terminals", nargs="+")
    told = words.parse_args()
    if (told.queue or told.walk) and not told.building:
        words.error("--queue and --walk need the --building")
    if told.policy and not told.record:
        words.error("--policy goes with --record")
    return told


def front_of(words):
    if not words.queue and not words.walk:
        return None
    with open(words.building, "rb") as text:
        return Front(tomllib.load(text), words.queue, words.walk)


if __name__ == "__main__":
    words = words_of()
    try:
        record = Record(words.record, words.policy) if words.record else None
        asyncio.run(listen(words.server, words.address, words.terminals, front_of(words), record))
    except (OSError, OverflowError, tomllib.TOMLDecodeError) as fault:
        sys.exit(f"proxy.py: {fault}")
    except KeyboardInterrupt:
        pass
