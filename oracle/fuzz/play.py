"""What the rounds share: programs that are started and ended, findings, and how bytes are spoilt."""

import collections
import os
import signal
import socket
import struct
import subprocess
import time

PATIENCE = 120  # seconds, for one answer or one end
PLACES = [b"a", b"b", b"c", b"d", b"d/x", b"d/y", b"d/e", b"d/e/f", b"g", b"g/h", b"\xff\xfe", b"d/\n", b"'", b"a b", b"g/" + b"n" * 255]
started = []  # programs that run, to be ended at the end
end_at = [float("inf")]  # when the time for all rounds is over
seen = collections.Counter()  # what was answered, and how often


def is_over():
    return time.monotonic() > end_at[0]


class Wrong(Exception):
    """What was seen is not what has to be."""


def expect(good, what):
    if not good:
        raise Wrong(what)


def shown(data):
    """Bytes as a finding tells them."""
    text = data.hex() if isinstance(data, bytes) else repr(data)
    return text if len(text) < 4000 else f"{text[:2000]}..{text[-500:]} ({len(text)} characters)"


def start(words, folder, **streams):
    streams = {"stdin": subprocess.DEVNULL, "stdout": subprocess.DEVNULL, "stderr": subprocess.DEVNULL, **streams}
    it = subprocess.Popen(words, cwd=folder, **streams)
    started.append(it)
    return it


def finish(it, kill=False):
    """Waits for the end of a program, or ends it, and gives its status."""
    if kill:
        it.terminate()
    try:
        it.wait(PATIENCE)
    except subprocess.TimeoutExpired:
        it.kill()
        it.wait()
        started.remove(it)
        raise Wrong(f"it hangs: {it.args}") from None
    started.remove(it)
    expect(kill or it.returncode >= 0, f"it was ended by signal {-it.returncode}: {it.args}")
    return it.returncode


def end_all():
    for it in list(started):
        it.kill()
        it.wait()
    started.clear()


def run(words, folder, given=b""):
    """Runs a program to its end: its status, its output, and its lines on standard error."""
    it = start(words, folder, stdin=subprocess.PIPE, stdout=subprocess.PIPE, stderr=subprocess.PIPE)
    try:
        out, said = it.communicate(given, PATIENCE)
    except subprocess.TimeoutExpired:
        it.kill()
        it.communicate()
        raise Wrong(f"it hangs: {words}") from None
    finally:
        started.remove(it)
    expect(it.returncode >= 0, f"it was ended by signal {-it.returncode}: {words}")
    expect(it.returncode <= 8, f"status {it.returncode} is none of the table: {words}")
    return it.returncode, out, said


def expect_said(name, status, said):
    """The last line says the status where it is not 0, and one before it why; at 1 it says why in its place."""
    lines = said.decode("utf-8", "replace").split("\n")
    if status == 1:
        good = lines[-2:][0].startswith(f"{name}: cannot listen at ")
    elif status:
        good = lines[-2:] == [f"{name}: status {status}", ""] and len(lines) > 2
    else:
        good = ": status" not in lines[-2:][0]
    expect(good, f"status {status} with {said!r}")


class Peer:
    """A server or a surrogate that runs, and its port."""

    def __init__(self, name, words, folder):
        self.name, self.folder, self.said = name, folder, os.path.join(folder, f"{name}.said")
        with open(self.said, "wb") as said, open(os.path.join(folder, f"{name}.out"), "wb") as out:
            self.program = start(words, folder, stdout=out, stderr=said)
        self.port = self.listens()

    def listens(self):
        """The port that it says it listens at."""
        until = time.monotonic() + PATIENCE
        while True:
            with open(self.said, "rb") as said:
                line = said.read(4096).partition(b"\n")
            if line[1]:
                expect(line[0].startswith(f"{self.name}: listens at 127.0.0.1:".encode()), f"{self.program.args} says {line[0]!r}")
                return int(line[0].rpartition(b":")[2])
            expect(time.monotonic() < until and self.program.poll() is None, f"it does not listen: {self.program.args}")
            time.sleep(0.002)

    def ask(self, stream, half_closed=True):
        """Sends this, and gives all that comes back until the connection is closed."""
        with socket.socket() as it:
            it.settimeout(PATIENCE)
            came = b""
            try:
                it.connect(("127.0.0.1", self.port))
                it.sendall(stream)
                if half_closed:
                    it.shutdown(socket.SHUT_WR)
                while piece := it.recv(1 << 20):
                    came += piece
            except TimeoutError:
                raise Wrong(f"no answer and no end within {PATIENCE} s to {shown(stream)}") from None
            except OSError as error:
                raise Wrong(f"{error} behind {len(came)} bytes of an answer to {shown(stream)}") from None
            return came

    def reset(self, stream):
        """Sends this, and breaks the connection off."""
        with socket.socket() as it:
            it.settimeout(PATIENCE)
            it.setsockopt(socket.SOL_SOCKET, socket.SO_LINGER, struct.pack("ii", 1, 0))
            it.connect(("127.0.0.1", self.port))
            it.sendall(stream)


# ---- spoiling


def spoilt(random, data, others):
    """These bytes with one to three faults."""
    for _ in range(random.choice((1, 1, 1, 2, 3))):
        data = spoilt_once(random, data, others)
    return data


def spoilt_once(random, data, others):
    at, end = (random.randrange(len(data) + 1) for _ in range(2))
    at, end, kind = min(at, end), max(at, end), random.randrange(9)
    if kind == 0 and at < len(data):
        return data[:at] + bytes([data[at] ^ 1 << random.randrange(8)]) + data[at + 1 :]
    if kind == 1:
        return data[:at] + bytes([random.choice((0, 1, 2, 3, 4, 5, 8, 9, 31, 32, 47, 65, 127, 128, 255))]) + data[at + 1 :]
    if kind == 2:
        return data[:at]
    if kind == 3:
        return data[:at] + random.randbytes(random.choice((1, 2, 4, 8))) + data[at:]
    if kind == 4:
        return data[:at] + data[at + random.choice((1, 2, 4, 8)) :]
    if kind == 5:
        return data[:at] + data[at:end] + data[at:]
    if kind == 6:
        return data[:at] + data[end:]
    if kind == 7:
        other = random.choice(others)
        return data[:at] + other[random.randrange(len(other) + 1) :]
    size = random.choice((1, 2, 4, 8))
    number = int.from_bytes(data[at : at + size], "big") + random.choice((-1, 1, 1 << 8 * size - 1, random.randrange(1 << 8 * size)))
    return data[:at] + (number % (1 << 8 * size)).to_bytes(size, "big") + data[at + size :]


def weighted(random, table):
    return random.choices([it for it, _ in table], [weight for _, weight in table])[0]


SIGNALS = signal.SIGTERM, signal.SIGHUP, signal.SIGINT
