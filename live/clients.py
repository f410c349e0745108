"""What the scripts of this folder share: a server that is started and ended, counted cases, and frames made by hand.

The program is the one that the variable CORKED names, or ./corked at the top of the repository.
"""

import asyncio
import os
import resource
import socket
import subprocess
import sys
import time

TOP = os.path.dirname(os.path.dirname(os.path.abspath(__file__)))
PROGRAM = os.path.abspath(os.environ.get("CORKED", os.path.join(TOP, "corked")))
HOST = "127.0.0.1"
SERVER_SECONDS = 300  # a server that was left running ends after these
READY_SECONDS = 10
CASE_SECONDS = 60
RAW_SECONDS = 20  # for one call of a plain socket

CONTINUATION, TEXT, BINARY, CLOSE, PING, PONG = 0, 1, 2, 8, 9, 10


# ---- a server


def free_port():
    with socket.socket() as probe:
        probe.bind((HOST, 0))
        return probe.getsockname()[1]


def raise_file_limit():
    """As many open files as this user may have, for this process and the servers that it starts."""
    _, most = resource.getrlimit(resource.RLIMIT_NOFILE)
    resource.setrlimit(resource.RLIMIT_NOFILE, (most, most))
    return most


class Server:
    """`corked serve` on a free port, or on the given one, with the given options: for use with `with`."""

    def __init__(self, *options, port=None):
        self.port = port or free_port()
        self.options = options

    def __enter__(self):
        words = [PROGRAM, "serve", "--port", str(self.port), *self.options]
        self.process = subprocess.Popen(["timeout", str(SERVER_SECONDS), *words])
        until = time.monotonic() + READY_SECONDS
        while not self.takes_connections():
            if self.process.poll() is not None or time.monotonic() > until:
                self.__exit__()
                sys.exit(f"live: no server: {' '.join(words)}")
            time.sleep(0.05)
        return self

    def takes_connections(self):
        with socket.socket() as probe:
            return probe.connect_ex((HOST, self.port)) == 0

    def __exit__(self, *_):
        self.process.terminate()
        self.process.wait()

    def url(self, path):
        return f"ws://{HOST}:{self.port}{path}"


def example_lines(server):
    """The lines of the table of examples/README.md by their names, for this server's port."""
    with open(os.path.join(TOP, "examples", "README.md")) as file:
        rows = [line.split(" | `", 1) for line in file if " | `" in line]
    return {name.strip("| "): line.split("`")[0].replace("9001", str(server.port)) for name, line in rows}


# ---- cases


class Cases:
    """Runs cases one after another, and prints a line for each."""

    def __init__(self, script):
        self.script = script
        self.failed = 0

    async def run(self, name, case, seconds=CASE_SECONDS):
        """A case passes if it ends in time and raises nothing."""
        try:
            await asyncio.wait_for(case, seconds)
        except Exception as error:
            self.failed += 1
            why = str(error).splitlines()[:1] or [""]
            print(f"FAILED {self.script}: {name}: {type(error).__name__}: {why[0]}", flush=True)
        else:
            print(f"passed {self.script}: {name}", flush=True)

    def end(self):
        sys.exit(1 if self.failed else 0)


def expect(got, wanted):
    if got != wanted:
        raise AssertionError(f"{shortly(got)} came, and {shortly(wanted)} is wanted")


def shortly(value):
    text = repr(value)
    return text if len(text) <= 80 else f"{text[:60]}.. ({len(text)} characters)"


# ---- frames by hand, over plain sockets


def frame(opcode, payload=b"", final=True, reserved=0, key=b"\x37\xfa\x21\x3d"):
    """A client's frame. Without a key it is not masked."""
    first = (0x80 if final else 0) | reserved << 4 | opcode
    masked = 0x80 if key else 0
    size = len(payload)
    if size < 126:
        head = bytes([first, masked | size])
    elif size < 65_536:
        head = bytes([first, masked | 126]) + size.to_bytes(2, "big")
    else:
        head = bytes([first, masked | 127]) + size.to_bytes(8, "big")
    if not key:
        return head + payload
    return head + key + bytes(octet ^ key[place % 4] for place, octet in enumerate(payload))


class RawClient:
    """A connection whose octets are written by hand. With a path it is open once it is made, and `with` closes it."""

    def __init__(self, server, path=None, receive_buffer=None):
        self.socket = socket.socket()
        self.socket.settimeout(RAW_SECONDS)
        if receive_buffer:
            self.socket.setsockopt(socket.SOL_SOCKET, socket.SO_RCVBUF, receive_buffer)
        self.socket.connect((HOST, server.port))
        self.held = b""
        if path:
            self.send(request(path))
            expect(self.read_head()[:13], b"HTTP/1.1 101 ")

    def __enter__(self):
        return self

    def __exit__(self, *_):
        self.socket.close()

    def send(self, octets):
        self.socket.sendall(octets)

    def more(self):
        """Reads once. False at the end of the stream."""
        octets = self.socket.recv(65_536)
        self.held += octets
        return octets != b""

    def take(self, count):
        while len(self.held) < count:
            if not self.more():
                raise EOFError(f"the stream ended, and {count - len(self.held)} more octets are wanted")
        taken, self.held = self.held[:count], self.held[count:]
        return taken

    def read_head(self):
        while b"\r\n\r\n" not in self.held:
            if not self.more():
                return self.held
        return self.take(self.held.index(b"\r\n\r\n") + 4)

    def read_frame(self):
        """FIN and opcode as the octet that has them, and the payload."""
        first, size = self.take(2)
        if size == 126:
            size = int.from_bytes(self.take(2), "big")
        elif size == 127:
            size = int.from_bytes(self.take(8), "big")
        return first, self.take(size)

    def read_close(self):
        """The code of the close frame that comes next, behind which the stream has to end."""
        first, payload = self.read_frame()
        expect(first, 0x80 | CLOSE)
        expect(self.read_to_end(), b"")
        return int.from_bytes(payload[:2], "big") if payload else 1005

    def read_to_end(self):
        while self.more():
            pass
        taken, self.held = self.held, b""
        return taken


def request(path, *fields, version="13"):
    lines = [
        f"GET {path} HTTP/1.1",
        "Host: localhost",
        "Upgrade: websocket",
        "Connection: Upgrade",
        "Sec-WebSocket-Key: dGhlIHNhbXBsZSBub25jZQ==",
        f"Sec-WebSocket-Version: {version}",
        *fields,
    ]
    return "".join(f"{line}\r\n" for line in lines).encode() + b"\r\n"
