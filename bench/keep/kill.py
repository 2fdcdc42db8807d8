"""Kills the client, the server or both at random moments, and compares what goes on with a model. kill.sh says how it is run."""

import contextlib
import os
import random
import shutil
import signal
import socket
import struct
import subprocess
import sys
import tempfile
import time

LINES = 50  # in a session
SESSIONS = 20  # over the same images, before both begin anew
FOLDERS = ["a", "b", "a/c"]
FILES = ["x", "y", "z"]
WHO = ["client", "server", "both"]
started = []  # the processes that run, to be ended at the end


class Wrong(Exception):
    """What was seen is not what the model says."""


def expect(good, what):
    if not good:
        raise Wrong(what)


class Model:
    """The tree after each number of entries: path to (version, node), a node being None, 'folder', or the bytes of a file and whether it
    may be run."""

    def __init__(self):
        self.trees = [{}]

    def count(self):
        return len(self.trees) - 1

    def node(self, path):
        return self.trees[-1].get(path, (0, None))[1]

    def is_exec(self, path):
        """Whether a file that may be run stands there."""
        node = self.node(path)
        return isinstance(node, tuple) and node[1]

    def is_folder(self, path):
        return path == "" or self.node(path) == "folder"

    def log(self, changes):
        tree = dict(self.trees[-1])
        for path, node in changes:
            tree[path] = (tree.get(path, (0, None))[0] + 1, node)
        self.trees.append(tree)
        return f"logged {self.count()}"

    def child(self, path):
        """The first child with a node."""
        inside = sorted(it for it in self.trees[-1] if os.path.dirname(it) == path and self.node(it) is not None)
        return inside[0] if inside else None

    def answer(self, line):
        """The answer to a line, as if each sync came through."""
        word, *rest = line.split(" ")
        if word == "sync":
            return f"synced {self.count()}"
        if word == "run":
            return self.run(rest)
        path = rest[0]
        target = rest[1] if word == "mv" else path
        parent = os.path.dirname(target)
        if word != "rm" and not self.is_folder(parent):
            return f"refused NoParent {parent}"
        if word in ("mkdir", "mv") and self.node(target) is not None:
            return f"refused Exists {target}"
        if word in ("rm", "mv") and self.node(path) is None:
            return f"refused Missing {path}"
        if word in ("put", "mv") and self.node(path) == "folder":
            return f"refused IsFolder {path}"
        if word == "rm" and self.child(path):
            return f"refused NotEmpty {path} {self.child(path)}"
        if word == "put":
            return self.log([(path, (rest[1].encode() + b"\n", self.is_exec(path)))])
        if word == "mkdir":
            return self.log([(path, "folder")])
        if word == "rm":
            return self.log([(path, None)])
        return self.log([(path, None), (target, self.node(path))])


    def run(self, words):
        """The answer to a run in the root: of the shell, which writes a text to a file, of rm, which removes all at a path, or of chmod,
        which lets a file be run, or not any more."""
        if words[-3] == "/bin/rm":
            gone = [it for it in self.trees[-1] if f"{it}/".startswith(f"{words[-1]}/") and self.node(it) is not None]
            changes, status = [(it, None) for it in sorted(gone, key=lambda it: it.split("/"), reverse=True)], 0 if gone else 1
        elif words[-3] == "/bin/chmod":
            path, mode, node = words[-1], words[-2] == "+x", self.node(words[-1])
            changes, status = [(path, (node[0], mode))] if node and node[1] != mode else [], 0 if node else 1
        else:
            text, path = words[-6], words[-4]
            fits = self.is_folder(os.path.dirname(path)) and self.node(path) != "folder"
            node = text.encode() + b"\n", self.is_exec(path)
            changes, status = [(path, node)] if fits and self.node(path) != node else [], 0 if fits else 3
        return f"{self.log(changes)} status {status}" if changes else f"nothing logged status {status}"


def random_line(number):
    def path():
        return os.path.join(random.choice(["", *FOLDERS]), random.choice(FILES))

    word = random.choices(["put", "mkdir", "mv", "rm", "run", "sync"], [9, 3, 3, 3, 7, 4])[0]
    if word == "run" and random.random() < 0.2:
        return f"run -- /bin/rm -r {random.choice([path(), random.choice(FOLDERS)])}"
    if word == "run" and random.random() < 0.4:
        return f"run -- /bin/chmod {random.choice(['+x', '-x'])} {path()}"
    if word == "run":
        return f"run env=PATH=/usr/bin:/bin -- /bin/sh -c 'echo ran{number} > {path()} || exit 3'"
    if word == "put":
        return f"put {path()} text{number}"
    if word == "mv":
        return f"mv {path()} {path()}"
    if word == "sync":
        return word
    return f"{word} {random.choice([path(), random.choice(FOLDERS)]) if word == 'rm' else random.choice(FOLDERS)}"


def read_rows(kept, count, at):
    """The tree of so many rows, and the place behind them."""
    tree = {}
    for _ in range(count):
        (size,) = struct.unpack_from(">H", kept, at)
        path = kept[at + 2 : at + 2 + size].decode()
        version, kind = struct.unpack_from(">QB", kept, at + 2 + size)
        at += size + 11
        node = [None, "folder", None, None][kind]
        if kind > 1:
            (size,) = struct.unpack_from(">I", kept, at)
            node = kept[at + 4 : at + 4 + size], kind == 3
            at += 4 + size
        tree[path] = (version, node)
    return tree, at


def read_snapshot(frame):
    """The last number and the tree of a Snapshot frame."""
    expect(frame[4:7] == bytes([3, 21, 64]), f"no snapshot: {frame[:20].hex()}")
    last, count = struct.unpack_from(">QI", frame, 15)
    tree, at = read_rows(frame, count, 27)
    expect(at == len(frame), "bytes are left behind a snapshot")
    return last, tree


class Pair:
    """A client's image, and a server with its own."""

    def __init__(self, client, server, folder):
        self.programs, self.folder = (client, server), folder
        self.client_image, self.server_image = f"{folder}/client", f"{folder}/server"
        with socket.socket() as it:
            it.bind(("127.0.0.1", 0))
            self.port = it.getsockname()[1]
        self.start_server()

    def start(self, words, **pipes):
        it = subprocess.Popen(words, stderr=subprocess.PIPE, cwd=self.folder, **pipes)
        started.append(it)
        return it

    def start_server(self):
        words = [self.programs[1], "run", f"127.0.0.1:{self.port}", self.server_image, "65536"]
        self.server = self.start(words, stdin=subprocess.DEVNULL, stdout=subprocess.DEVNULL)

    def start_client(self):
        words = [self.programs[0], "run", "1", self.client_image, f"127.0.0.1:{self.port}", "-", "work"]
        return self.start(words, stdin=subprocess.PIPE, stdout=subprocess.PIPE)

    def end(self, it, status=-signal.SIGKILL):
        """Ends a process, or waits for its own end, and takes what it said."""
        if status:
            it.kill()
        said = it.stderr.read()
        it.stderr.close()
        expect(it.wait(60) in (status, 0), f"status {it.returncode}: {said.decode(errors='replace')}")
        started.remove(it)
        return said.decode(errors="replace")

    def kill_server(self):
        expect(self.server.poll() is None, f"the server ended with {self.server.returncode}")
        self.end(self.server)

    def end_all(self):
        for it in list(started):
            self.end(it)

    def last_number(self):
        """The server's last number of client 1, by its image."""
        if not os.path.exists(self.server_image):
            return 0
        with open(self.server_image, "rb") as it:
            kept = it.read()
        expect(kept[:5] == b"OSSI\x02", "no server's image")
        (last,) = struct.unpack_from(">Q", kept, 5)
        (count,) = struct.unpack_from(">I", kept, 5 + 64 * 8)
        _, at = read_rows(kept, count, 9 + 64 * 8)
        # the records behind it, of which the last one may be torn
        while at + 4 <= len(kept) and at + 4 + struct.unpack_from(">I", kept, at)[0] <= len(kept):
            size, kind, client, number = struct.unpack_from(">IBBQ", kept, at)
            expect(kind == 3, "no record of a store")
            last = number if client == 1 else last
            at += 4 + size
        return last

    def pull(self):
        """The tree that the server has, asked as client 64. It may have been started just now."""
        for _ in range(2000):
            with socket.socket() as it:
                it.settimeout(30)
                if it.connect_ex(("127.0.0.1", self.port)):
                    expect(self.server.poll() is None, f"the server ended with {self.server.returncode}")
                    time.sleep(0.005)
                    continue
                it.sendall(bytes.fromhex("0000000b03034000000000") + bytes(4))
                frame = b""
                while piece := it.recv(1 << 16):
                    frame += piece
                return read_snapshot(frame)[1]
        raise Wrong("the server does not listen")


class Answers:
    """The answers of a client, line by line."""

    def __init__(self, client):
        self.client, self.bytes = client, b""

    def read(self, count):
        """The first lines that came, at least so many unless it ended."""
        while self.bytes.count(b"\n") < count:
            piece = os.read(self.client.stdout.fileno(), 1 << 16)
            if not piece:
                break
            self.bytes += piece
        return self.bytes.decode().split("\n")[:-1]

    def rest(self):
        lines = self.read(1 << 30)
        self.client.stdout.close()
        return lines


def send(client, lines):
    client.stdin.write("".join(f"{it}\n" for it in lines).encode())
    client.stdin.flush()


def numbers(line, words):
    """The numbers of a line such as 'acknowledged 3 pending 1'."""
    parts = line.split(" ")
    expect(parts[::2] == words.split(" "), f"{line!r} is not of the form {words}")
    return [int(it) for it in parts[1::2]]


def acknowledged_by(answers, lines, expected, before, was_killed):
    """The number up to which these answers say that entries are acknowledged. All but syncs are as expected."""
    acked = before
    for answer, line, (good, count) in zip(answers, lines, expected):
        if line != "sync" or not was_killed or answer == good:
            expect(answer == good, f"{line!r} is answered {answer!r}, not {good!r}")
            acked = count if line == "sync" else acked
        else:
            (seq,) = numbers(answer, "unanswered")
            expect(acked < seq <= count, f"{answer!r} behind {acked} with {count} logged")
            acked = seq - 1
    return acked


def resumed(pair, seen):
    """A client that goes on from what is kept, and its first two answers. What a killed client had just forked has its lock until it is
    another program: then it is started once more."""
    for _ in range(100):
        client = pair.start_client()
        replies = Answers(client)
        with contextlib.suppress(BrokenPipeError):
            send(client, ["status", "sync"])
        first = replies.read(2)
        if first:
            expect(len(first) == 2, f"only {first} was answered")
            return client, replies, first
        replies.rest()
        with contextlib.suppress(BrokenPipeError):
            client.stdin.close()
        said = pair.end(client, 5)
        expect("is held by another program" in said, f"nothing was answered: {said}")
        seen["held"] += 1
        time.sleep(0.01)
    raise Wrong("the lock stays held")


def go_on(pair, model, lines, expected, answers, seen):
    """Starts a client on what is kept, syncs, and takes up the lines that are left. The client was stopped, if not at its end, in the
    line behind the answered ones."""
    done = min(len(answers), len(lines))
    low = expected[done - 1][1] if done else seen["before"]
    high = expected[done][1] if done < len(lines) else low
    client, replies, first = resumed(pair, seen)
    acked, pending = numbers(first[0], "acknowledged pending")
    total = acked + pending
    expect(low <= total <= high, f"{low} to {high} entries were logged, {first[0]}")
    expect(acked >= seen["acked"], f"{seen['acked']} was acknowledged, {first[0]}")
    expect(acked <= seen["last"] <= min(acked + 8, total), f"the server had {seen['last']}, {first[0]}")
    expect(first[1] == f"synced {total}", f"{first[1]!r} with {total} logged")
    expect(pair.pull() == model.trees[total], f"the server's tree is not that after {total} entries")
    if total > low:
        seen["kept unanswered"] += 1
        done += 1
    send(client, [*lines[done:], "sync"])
    client.stdin.close()
    good = [it[0] for it in expected[done:]]
    good += [f"synced {model.count()}", f"acknowledged {model.count()} pending 0"]
    rest = replies.rest()[2:]
    expect(rest == good, f"behind line {done}: {rest} is not {good}")
    pair.end(client, 0)
    expect(pair.last_number() == model.count(), "the server's image has another last number")
    expect(pair.pull() == model.trees[-1], "the server's tree at the end is another")


def session(pair, model, who, seen):
    """A session of 50 lines with a kill, and what goes on from it."""
    seen["before"] = model.count()
    lines = [random_line(it) for it in range(LINES)]
    expected = [(model.answer(it), model.count()) for it in lines]
    client = pair.start_client()
    replies = Answers(client)
    began = time.monotonic()
    send(client, lines)
    moment = random.randrange(LINES)
    before_kill = replies.read(moment)
    time.sleep(random.random() * 2 * seen["a line"])
    if who != "client":
        pair.kill_server()
    if who != "server":
        client.kill()
    known = acknowledged_by(before_kill, lines, expected, seen["before"], False)
    if who != "client":
        seen["at hand"] += os.path.exists(pair.server_image + ".new")
        pair.start_server()
        tree = pair.pull()
        last = pair.last_number()
        expect(last >= known, f"{known} was acknowledged, and the server has {last}")
        expect(who == "server" or tree == model.trees[last], f"the server's tree is not that after {last} entries")
    client.stdin.close()
    answers = replies.rest()
    if who == "client":
        seen["a line"] += ((time.monotonic() - began) / (len(answers) + 1) - seen["a line"]) / 8
    seen["acked"] = acknowledged_by(answers, lines, expected, seen["before"], who != "client")
    seen["unanswered"] += sum(it.startswith("unanswered") for it in answers)
    if who != "server":
        seen["at its end"] += len(answers) > LINES
        seen["at hand"] += os.path.exists(pair.client_image + ".new")
    pair.end(client, 0 if who == "server" else -signal.SIGKILL)
    seen["last"] = pair.last_number()
    go_on(pair, model, lines, expected, answers, seen)


def main(client, server, moments, seed):
    random.seed(seed)
    programs = os.path.abspath(client), os.path.abspath(server)
    seen = {"a line": 0.002, "kept unanswered": 0, "unanswered": 0, "at hand": 0, "at its end": 0, "held": 0}
    killed = dict.fromkeys(WHO, 0)
    room, pair, model = tempfile.mkdtemp(), None, None
    began = time.monotonic()
    try:
        for number in range(moments):
            if number % SESSIONS == 0:
                if pair:
                    pair.end_all()
                    shutil.rmtree(pair.folder, ignore_errors=True)
                pair, model = Pair(*programs, tempfile.mkdtemp(dir=room)), Model()
                pair.pull()
            who = WHO[number % 3]
            killed[who] += 1
            try:
                session(pair, model, who, seen)
            except Wrong as wrong:
                sys.exit(f"moment {number} of seed {seed}, {who} killed: {wrong}")
    finally:
        for it in started:
            it.kill()
            it.wait()
        # a removal beside may go on
        shutil.rmtree(room, ignore_errors=True)
    print(f"{moments} moments of seed {seed} in {time.monotonic() - began:.0f} s: killed " + ", ".join(f"{it} {killed[it]}" for it in WHO))
    print(f"  the line at hand was kept without its answer {seen['kept unanswered']} times; an image was being written {seen['at hand']} times")
    print(f"  syncs unanswered beside a killed server: {seen['unanswered']}; clients that had ended before: {seen['at its end']}; "
          f"starts while a lock was held still: {seen['held']}")
    print("  nothing that was answered is lost, nothing is applied twice, both programs went on from their images")


SIGNALS = signal.SIGTERM, signal.SIGHUP, signal.SIGINT


def stop(number, _):
    for it in SIGNALS:
        signal.signal(it, signal.SIG_IGN)
    sys.exit(128 + number)


for it in SIGNALS:
    signal.signal(it, stop)
main(sys.argv[1], sys.argv[2], int(sys.argv[3]), int(sys.argv[4]))
