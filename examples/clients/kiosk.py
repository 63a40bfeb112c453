#!/usr/bin/env python3
"""A kiosk: asks for floors, one after another, and prints each car's letter.

Usage: kiosk.py PORT KIOSK FLOOR[xPARTY] ..     for example: kiosk.py 4000 0 5 8x3
"""
import socket
import sys
import time


class Kiosk:
    def __init__(self, port, kiosk):
        self.port, self.kiosk, self.last, self.lines = port, kiosk, None, None

    def connect(self):
        """Connects until the greeting comes; `READY <last> [letter]` says which number was last."""
        while True:
            try:
                stream = socket.create_connection(("127.0.0.1", self.port), timeout=75)
                self.lines = stream.makefile("rw", newline="\n")
                greeting = self.tell(f"KIOSK {self.kiosk}").split()
            except OSError:
                greeting = []
            if greeting[:1] == ["READY"]:
                self.last = int(greeting[1])
                return
            if greeting[:1] == ["BAD"]:
                sys.exit("no such kiosk")
            time.sleep(0.2)  # BUSY, LATE or no connection: the seat is in use, or the server starts again

    def tell(self, line):
        self.lines.write(line + "\n")
        self.lines.flush()
        return self.lines.readline().rstrip("\n")

    def call(self, floor, party=1):
        """Asks until the call is answered: a letter, or the reason of a refusal. Its number stays the same, so it is never asked twice
        over, until it is told that the number is another call's."""
        number, ticket = self.last + 1, ""
        while True:
            try:
                answer = self.tell(f"CALL {number} {floor} {party}{ticket}").split()
            except OSError:
                answer = []
            if answer[:1] == ["WAIT"]:  # a queue in front, as that of proxy.py: ask again with the ticket
                ticket = " " + answer[1]
                time.sleep(1)
                continue
            if answer[:1] == ["SPENT"]:
                print("kiosk.py: SPENT: it has asked as often as it may since liftd was started; it has to be started again", file=sys.stderr)
                sys.exit(3)
            if answer[:1] == ["CAR"]:
                self.last = number
                return "car " + answer[1]
            if answer[:1] == ["NO"] and answer[1] not in ("4", "5", "6"):
                return "refused, reason " + answer[1]
            time.sleep(0.2)  # UNKNOWN, LATE or a closed connection: ask again with this number, and not at once
            self.connect()
            if answer[:1] == ["NO"]:
                number = self.last + 1  # that number is another call's: the greeting has told the last one


if __name__ == "__main__":
    if len(sys.argv) < 4:
        sys.exit(__doc__)
    kiosk = Kiosk(int(sys.argv[1]), int(sys.argv[2]))
    kiosk.connect()
    for word in sys.argv[3:]:
        floor, _, party = word.partition("x")
        print(f"floor {floor}: {kiosk.call(int(floor), int(party or 1))}")
