"""The tables of run.sh: KIND N .., or all kinds."""
import contextlib
import os
import pathlib
import select
import shutil
import signal
import socket
import subprocess
import sys
import tempfile
import time

KINDS = {
    "rows": (100, 1_000, 4_000, 16_000),
    "bytes": (0, 8, 30),
    "pending": (1, 100, 1_000),
    "depth": (1, 8, 31),
    "work": (100, 1_000, 4_000),
}
PATIENCE = 900  # seconds for an answer
IN_A_FOLDER, IN_A_RUN = 100, 3_000  # files
MEMORY = os.environ.get("MEMORY", "/dev/shm")


def end(program):
    program.kill()
    program.wait()


def free_port():
    with socket.socket() as free:
        free.bind(("127.0.0.1", 0))
        return free.getsockname()[1]


def shell(script):
    return f"run env=LC_ALL=C env=PATH=/usr/bin:/bin -- /bin/sh -c '{script}'"


def spent(program):
    """The milliseconds of processor of a program, and the bytes that it wrote."""
    of = pathlib.Path(f"/proc/{program.pid}")
    nanoseconds = sum(int((task / "schedstat").read_text().split()[0]) for task in (of / "task").iterdir())
    written = next(int(line.split()[1]) for line in (of / "io").read_text().splitlines() if line.startswith("wchar"))
    return nanoseconds / 1e6, written


class Cost:
    """What a line cost: by program milliseconds and bytes; seconds by the clock."""

    def __init__(self, before, after, seconds):
        self.parts = {name: (after[name][0] - before[name][0], after[name][1] - before[name][1]) for name in after}
        self.seconds = seconds

    def show(self, size, what):
        parts = "  ".join(f"{name} {ms:9.2f} ms {written:>11,} B" for name, (ms, written) in self.parts.items())
        print(f"{size:>8}  {what:34} {self.seconds:8.3f} s  {parts}", flush=True)


class Scene:
    """A server, a surrogate where there is to be one, and a client."""

    def __init__(self, stack, work=None, has_surrogate=True):
        self.folder, self.stack = tempfile.mkdtemp(prefix="haurpiko-grow-"), stack
        stack.callback(shutil.rmtree, self.folder, ignore_errors=True)
        self.work, self.programs = work or f"{self.folder}/work", {}
        self.at_server, self.at_surrogate = free_port(), free_port() if has_surrogate else None
        self.serve()
        if has_surrogate:
            self.listen("surrogate", self.at_surrogate, f"127.0.0.1:{self.at_surrogate}", f"127.0.0.1:{self.at_server}", self.work, "65536")
        self.connect(1)

    def start(self, name, *words, **streams):
        program = subprocess.Popen([os.environ[name.upper()], "run", *words], stderr=subprocess.DEVNULL, **streams)
        self.stack.callback(end, program)
        self.programs[name] = program
        return program

    def listen(self, name, port, *words):
        program = self.start(name, *words, stdin=subprocess.DEVNULL, stdout=subprocess.DEVNULL)
        for _ in range(3_000):
            if f"0100007F:{port:04X} 00000000:0000 0A" in pathlib.Path("/proc/net/tcp").read_text():
                return
            if program.poll() is not None:
                break
            time.sleep(0.02)
        raise SystemExit(f"the {name} does not listen")

    def serve(self):
        self.listen("server", self.at_server, f"127.0.0.1:{self.at_server}", f"{self.folder}/server.image", "65536")

    def connect(self, number, with_surrogate=True):
        near = f"127.0.0.1:{self.at_surrogate}" if self.at_surrogate and with_surrogate else "-"
        words = (str(number), f"{self.folder}/client{number}.image", f"127.0.0.1:{self.at_server}", near, self.work)
        self.client, self.held = self.start("client", *words, stdin=subprocess.PIPE, stdout=subprocess.PIPE), b""

    def more(self):
        if not select.select([self.client.stdout], [], [], PATIENCE)[0]:
            raise SystemExit(f"no answer in {PATIENCE} s")
        piece = os.read(self.client.stdout.fileno(), 65_536)
        if not piece:
            raise SystemExit("the client ended")
        self.held += piece

    def hear(self):
        while b"\n" not in self.held:
            self.more()
        line, _, self.held = self.held.partition(b"\n")
        return line.decode()

    def say(self, line, front=""):
        """The cost of a line, whose answer begins as it is to."""
        before = {name: spent(it) for name, it in self.programs.items()}
        begun = time.monotonic()
        self.client.stdin.write(line.encode() + b"\n")
        self.client.stdin.flush()
        answer = self.hear()
        if not answer.startswith(front):
            raise SystemExit(f"{line[:60]}: {answer}")
        if line.startswith("ls"):
            for _ in range(int(answer)):
                self.hear()
        elif line.startswith("cat"):
            while len(self.held) < int(answer):
                self.more()
            self.held = self.held[int(answer):]
        seconds = time.monotonic() - begun
        time.sleep(0.02)  # what a program does behind its answer
        return Cost(before, {name: spent(it) for name, it in self.programs.items()}, seconds)

    def least(self, lines, front=""):
        return min((self.say(line, front) for line in lines), key=lambda cost: cost.parts["client"][0])

    @contextlib.contextmanager
    def as_files(self):
        """A session without the surrogate, and then a new one."""
        self.leave()
        self.connect(1, with_surrogate=False)
        yield
        self.leave()
        self.connect(1)

    def leave(self):
        self.say("quit")
        self.client.wait(PATIENCE)
        del self.programs["client"]

    def make_rows(self, count):
        """So many files in folders, by commands; synced."""
        with self.as_files():
            for first in range(0, count, IN_A_RUN):
                most = min(count, first + IN_A_RUN)
                step = f"d=$((i / {IN_A_FOLDER})); [ -d $d ] || mkdir $d; echo $i > $d/$i; i=$((i + 1))"
                self.say(shell(f"i={first}; while [ $i -lt {most} ]; do {step}; done"), "logged")
                self.say("sync", "synced")

    def make_bytes(self, mebibytes):
        """Four files of chance of so many MiB together, as files; synced."""
        with self.as_files():
            if mebibytes:
                self.say(shell(f"head -c {mebibytes * 262_144} /dev/urandom > a; for i in b c d; do cat a > $i; done"), "logged")
                self.say("sync", "synced")


def show_command(scene, size, name, what):
    """A command that makes a file of 3,893 bytes, which is longer than the command with its print."""
    scene.say(shell(f"seq 1000 > {name}"), "logged").show(size, what)
    scene.say("sync", "synced").show(size, "sync of it, as its command")


def show_lines(scene, size):
    """What lines cost over the files that are there."""
    scene.say("put first hello", "logged").show(size, "first put of a session")
    scene.least([f"put p{i} hello" for i in range(5)], "logged").show(size, "put")
    scene.least(["status"] * 3).show(size, "status")
    scene.least(["cat p1"] * 5).show(size, "cat")
    scene.say("sync", "synced")
    scene.say("put q hello", "logged")
    scene.say("sync", "synced").show(size, "sync of one put")
    scene.least(["run -- /bin/true"] * 3, "nothing logged").show(size, "run /bin/true")
    for name, what in (("made", "run that makes a file"), ("made2", "another run that makes a file")):
        show_command(scene, size, name, what)
    scene.say("pull", "pulled").show(size, "pull with nothing new")
    scene.leave()
    scene.connect(1)
    scene.say("status").show(size, "status of a new session")
    scene.leave()
    scene.connect(2)
    scene.say("pull", "pulled").show(size, "pull of all by a new client")


def show_rows(stack, size):
    scene = Scene(stack)
    scene.make_rows(size)
    show_lines(scene, size)


def show_bytes(stack, size):
    scene = Scene(stack)
    scene.make_bytes(size)
    show_lines(scene, size)


def show_pending(stack, size):
    scene = Scene(stack, has_surrogate=False)
    for number in range(size):
        cost = scene.say(f"put p{number} hello", "logged")
    cost.show(size, "last put")
    scene.least(["status"] * 3).show(size, "status")
    scene.least(["cat p0"] * 3).show(size, "cat")
    scene.say("sync", "synced").show(size, "sync of all")


def show_depth(stack, size):
    scene, path = Scene(stack, has_surrogate=False), ""
    for depth in range(1, size):
        path += f"d{depth}/"
        scene.say(f"mkdir {path[:-1]}", "logged")
    scene.least([f"put {path}f{i} hello" for i in range(9)], "logged").show(size, "put")
    scene.least([f"cat {path}f1"] * 9).show(size, "cat")
    scene.say("sync", "synced").show(size, "sync of all")


def show_work(stack, size):
    """A command that does nothing over so many rows, with WORK on the disk and in memory."""
    memory = tempfile.mkdtemp(prefix="haurpiko-grow-", dir=MEMORY) if os.path.isdir(MEMORY) else None
    stack.callback(shutil.rmtree, memory or "", ignore_errors=True)
    for name, work in (("in TMPDIR", None), (f"in {MEMORY}", memory)):
        if name != "in TMPDIR" and not memory:
            print(f"there is no {MEMORY}: left out", file=sys.stderr)
            continue
        scene = Scene(stack, work)
        scene.make_rows(size)
        scene.least(["run -- /bin/true"] * 5, "nothing logged").show(size, f"run /bin/true, WORK {name}")
        show_command(scene, size, "made", "run that makes a file")


SHOW = {"rows": show_rows, "bytes": show_bytes, "pending": show_pending, "depth": show_depth, "work": show_work}


def main(words):
    if words and words[0] not in KINDS:
        raise SystemExit(f"one of {', '.join(KINDS)}, and numbers")
    for kind in words[:1] or KINDS:
        print(f"by {kind}: seconds by the clock; processor and bytes written by each program")
        for size in map(int, words[1:]) if words[1:] else KINDS[kind]:
            with contextlib.ExitStack() as stack:
                SHOW[kind](stack, size)


if __name__ == "__main__":
    for number in (signal.SIGHUP, signal.SIGINT, signal.SIGTERM):
        signal.signal(number, lambda caught, _: sys.exit(128 + caught))
    main(sys.argv[1:])
