"""Connections to a server that follow a script. Each line of it begins with a connection's digit:

`1+` it is made; `1>TEXT` it says this line, `1~TEXT` these bytes; `1<TEXT` it hears just this line; `1.` it hears that the other end is
closed, and nothing before, `1x` that, or that it is reset; `1-` it hears that after closing its own; `1!` it is reset once an answer waits
to be read; `1*TEXT` it is made and says this line, again for five seconds while it is `BUSY`; `1=` other connections are made and closed until
the server has ended. A line of another form isn't as the script has it.
"""
import contextlib
import socket
import subprocess
import time

PATIENCE = 10  # how long a connection waits for what it wants to hear, in seconds
RETURN, RETRY = 5, 0.1  # how long it tries to come back, and how long it waits between two tries
LAST_ONES = 200  # the connections that end a server
WITH_TEXT, WITHOUT = "*<>~", "+-.!=x"  # the signs


def connected(port):
    return socket.create_connection(("127.0.0.1", port), timeout=PATIENCE)


def heard(stream, count):
    """What comes next, so many bytes or what comes before the end."""
    came = b""
    while len(came) < count and (piece := stream.recv(count - len(came))):
        came += piece
    return came


def is_closed(stream, may_be_reset=False):
    try:
        return stream.recv(1) == b""
    except ConnectionResetError:
        return may_be_reset


def comes_back(port, text):
    """The connection that is answered otherwise than by BUSY, none where there is none in time."""
    until = time.monotonic() + RETURN
    while time.monotonic() < until:
        stream = connected(port)
        stream.sendall(text.encode() + b"\n")
        first = stream.recv(1, socket.MSG_PEEK)
        if first != b"B":
            return stream if first else None
        stream.close()
        time.sleep(RETRY)
    return None


def ends(port, server):
    """Makes connections and closes them until the server has ended, and waits where it has only counted them yet."""
    until = time.monotonic() + PATIENCE
    for _ in range(LAST_ONES):
        if server.poll() is not None or time.monotonic() > until:
            break
        try:
            connected(port).close()
        except OSError:
            time.sleep(RETRY)
    with contextlib.suppress(subprocess.TimeoutExpired):
        server.wait(PATIENCE)
    return server.poll() is not None


def is_line(line):
    """Whether it has the form of a script's lines."""
    name, kind, text = line[:1], line[1:2], line[2:]
    return name.isdigit() and kind != "" and (kind in WITH_TEXT or kind in WITHOUT and text == "")


def follows(callers, port, server, line):
    """Whether a line is as the script has it."""
    name, kind, text = line[0], line[1], line[2:]
    if kind == "=":
        return ends(port, server)
    if kind in "+*":
        callers[name] = connected(port) if kind == "+" else comes_back(port, text)
        return callers[name] is not None
    if name not in callers:
        return False
    stream = callers[name]
    if kind in ">~":
        stream.sendall(text.encode() + b"\n" * (kind == ">"))
        return True
    if kind == "<":
        return heard(stream, len(text) + 1) == text.encode() + b"\n"
    if kind == "!":
        is_there = stream.recv(1, socket.MSG_PEEK) != b""
        stream.close()  # (what is unread then resets it)
        return is_there
    if kind == "-":
        stream.shutdown(socket.SHUT_WR)
    return is_closed(stream, kind == "x")


def wrong_line(port, server, script):
    """The first line that isn't as the script has it, nothing where all are."""
    callers = {}
    for line in script.splitlines():
        try:
            if not is_line(line) or not follows(callers, port, server, line):
                return line or "an empty line"
        except OSError as fault:
            return f"{line}: {fault}"
    return ""
