"""The disk below the lobby's group. The server tells here each call that it makes on its image before it makes it, and is told whether to go
on. At a call that was chosen it fails, or the power is cut. A library that is loaded before the C library asks so: drop-unsynced.c."""
import contextlib
import os
import pathlib
import random
import shutil
import socket
import subprocess
import threading
import time

LIBRARY = pathlib.Path(__file__).resolve().parent.parent.parent / "tools/preloaded/drop-unsynced.c"
SECTOR, OPEN, CALLS = 512, 0xA5, 5  # bytes; a gate's first byte; the calls of a batch
SLOW = 0.5  # s that a call takes in slow motion
HOW = {"cut": b"c", "fail": b"f"}


def compiled(room):
    """The library, where there is a C compiler."""
    library = pathlib.Path(room) / "drop-unsynced.so"
    words = ["cc", "-O2", "-shared", "-fPIC", "-o", library, LIBRARY, "-ldl"]
    is_made = shutil.which("cc") and LIBRARY.exists() and subprocess.run(words, stderr=subprocess.DEVNULL).returncode == 0
    return library if is_made else None


def record_of(told):
    """A call that got its car, or a stop, by its 16 bytes; None for what else a checkpoint has."""
    number = int.from_bytes(told[8:12], "big")
    if told[0] == 1:
        return {"seat": told[1], "number": number, "to": told[3], "letter": chr(65 + told[4]), "isIn": None}
    return {"seat": told[1], "number": number, "floor": told[2], "isIn": None} if told[0] == 2 else None


class Write:
    """A batch, or a checkpoint, on its way to the disk: its calls, and how it ended where it didn't come to its last one."""

    def __init__(self, body):
        count = int.from_bytes(body[4:6], "big")
        told = [record_of(body[at : at + 16]) for at in range(16, min(16 * (count + 1), SECTOR), 16)]
        self.calls, self.records, self.end, self.bodies = [], [record for record in told if record], "", 0

    def name_of(self, sector, told):
        """What is written; `bodies` are the sectors of the body that are still to come."""
        if told[:2] == b"LB" and not self.bodies:
            self.bodies = 1 if int.from_bytes(told[4:6], "big") <= 31 else 2
        if self.bodies:
            self.bodies -= 1
            return "body"
        return "pick" if sector == 0 else "gate open" if told[0] == OPEN else "next gate closed"

    def is_letter(self):
        return any("letter" in record for record in self.records)

    def is_over(self):
        return bool(self.end) or [call["name"] for call in self.calls if call["state"] != "asked"].count("sync") == 2

    def unsynced(self):
        """The writes behind the last sync that came."""
        for call in reversed(self.calls):
            if call["name"] == "sync" and call["state"] == "done":
                return
            if call["name"] != "sync":
                yield call

    def state(self):
        return {"end": self.end, "records": self.records,
                "calls": [{word: call[word] for word in ("name", "state", "kept")} for call in self.calls]}


class Disk:
    """What the page shows of the last write to the journal, and of the last one that was cut or failed."""

    def __init__(self, image, room):
        self.image, self.library, self.is_slow, self.plan = image, compiled(room), False, None
        self.write = self.struck = None

    def choose(self, how, call):
        """At which call of the next batch with a letter the power is cut, or the call fails; not at all where `how` is None."""
        if how is not None and (not self.library or how not in HOW or not 1 <= call <= CALLS):
            raise ValueError("no such fault or call")
        self.plan = how and (how, call)

    def below(self):
        """What a server needs to ask here: its surroundings, and its end of the stream."""
        if not self.library:
            return os.environ, None
        ours, theirs = socket.socketpair()
        threading.Thread(target=self.follow, args=(ours,), daemon=True).start()
        asking = {"LD_PRELOAD": str(self.library), "DROP_FILE": str(self.image), "DROP_ASK": str(theirs.fileno()),
                  "DROP_MODE": "lose", "DROP_SEED": str(random.randrange(1 << 30))}
        return os.environ | asking, theirs

    def follow(self, stream):
        """Answers one server until it has ended."""
        with contextlib.suppress(OSError), stream, stream.makefile("rb") as lines:
            while line := lines.readline():
                word, *sector = line.decode().split()
                told = lines.read(SECTOR) if sector else None
                if told is not None and len(told) < SECTOR:
                    break
                if word in ("write", "sync"):
                    stream.sendall(self.answer(int(sector[0]) if sector else None, told))
                elif self.write and self.write.calls[-1]["state"] == "asked":
                    self.write.calls[-1]["state"] = word
        with contextlib.suppress(FileNotFoundError):  # (the lobby itself has ended)
            self.server_ended()

    def answer(self, sector, told):
        """To the write of a sector, or to a sync."""
        if not self.write or self.write.is_over():
            if not told:
                return b"g"  # a start begins with a sync
            self.write = Write(told)
        write, call = self.write, {"name": "sync", "state": "asked", "kept": ""}
        if told:
            call |= {"name": self.write.name_of(sector, told), "at": sector, "told": told, "before": self.on_disk(sector)}
        write.calls = [*write.calls, call]
        is_meant = self.plan and write.is_letter()
        if self.is_slow or is_meant:
            time.sleep(SLOW)
        if not is_meant or not self.plan or len(write.calls) != self.plan[1]:
            return b"g"
        how, self.plan = self.plan[0], None
        call["state"] = write.end = how
        self.struck = write
        return HOW[how]

    def on_disk(self, sector):
        with open(self.image, "rb") as file:
            return os.pread(file.fileno(), SECTOR, sector * SECTOR)

    def server_ended(self):
        """What was written and not synced is there, or not, or in part."""
        if not self.write or self.write.is_over() and not self.write.end:
            return
        self.write.end = self.write.end or "killed"
        self.struck = self.write
        for call in self.write.unsynced():
            now = self.on_disk(call["at"])
            call["kept"] = "there" if now == call["told"] else "lost" if now == call["before"] else "torn"

    def greeted(self, seat, last):
        """The number of a terminal's last command that is in tells what became of its part of a write that didn't end."""
        for record in self.struck.records if self.struck else []:
            if record["seat"] == seat and record["isIn"] is None:
                record["isIn"] = last >= record["number"]

    def state(self):
        return {"can": self.library is not None, "slow": self.is_slow, "plan": self.plan,
                "write": self.write and self.write.state(), "struck": self.struck and self.struck.state()}
