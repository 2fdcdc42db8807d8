"""Plays the pieces of work of run.sh and writes the table."""
import collections
import concurrent.futures
import contextlib
import itertools
import os
import random
import select
import shutil
import signal
import socket
import subprocess
import sys
import tempfile
import threading
import time

HERE = os.path.dirname(os.path.abspath(__file__))
sys.path.insert(0, f"{HERE}/../link")
from proxy import Link  # noqa: E402

import pieces  # noqa: E402
import table  # noqa: E402

CACHE, OUT = os.environ["CACHE"], os.environ["OUT"]
IMPORT = f"{HERE}/../../dist/import"
PATIENCE = 900  # seconds for an answer: a silent surrogate costs as much before the files go
APART = 2.1  # seconds between the two runs
QUICK = 30  # seconds: a command that takes longer is not made a third time, to see what differs
NOBODY = 65_534
IS_ROOT = os.getuid() == 0
started, over, lock = [], threading.Event(), threading.Lock()
ports = itertools.cycle(range(20_000, 32_000))
for _ in range(random.randrange(12_000)):
    next(ports)


class Hung(Exception):
    """An answer that did not come."""


def start(words, **streams):
    with lock:
        if over.is_set():
            raise SystemExit
        program = subprocess.Popen(words, stdin=streams.pop("stdin", subprocess.DEVNULL), **streams)
        started.append(program)
        return program


def end(program):
    """Ends a program, and forgets it."""
    program.kill()
    program.wait()
    with lock:
        if program in started:
            started.remove(program)


def free_port():
    """A port that nothing has, and that no other scene is given."""
    with lock:
        while True:
            port = next(ports)
            with socket.socket() as free, contextlib.suppress(OSError):
                free.bind(("127.0.0.1", port))
                return port


def await_port(port):
    """Waits until something listens at the port, without a connection to it."""
    for _ in range(1_200):
        with open("/proc/net/tcp") as rows:
            listening = [row.split() for row in rows][1:]
        if any(row[1].endswith(f":{port:04X}") and row[3] == "0A" for row in listening):
            return
        time.sleep(0.05)
    raise Hung("a program does not listen")


def can_part():
    """Whether a program can be given a host name and a folder of its own."""
    words = ["unshare", "--uts", "--mount", "true"]
    return IS_ROOT and all(map(shutil.which, ("unshare", "setpriv"))) and subprocess.run(words, capture_output=True).returncode == 0


CAN_PART = can_part()


class Client:
    """A client that is talked to line by line."""

    def __init__(self, scene, number, surrogate, server=None, far=False):
        self.said, self.number = open(f"{scene.folder}/said{number}", "wb+"), number
        image = f"{scene.folder}/{'far-image' if far else 'image'}/client{number}"
        words = [*(scene.far if far else ()), f"{scene.programs}/client", "run", f"{number}", image]
        words += [server or scene.at_server, surrogate, scene.work]
        self.program = start(words, stdin=subprocess.PIPE, stdout=subprocess.PIPE, stderr=self.said)
        self.held = b""
        scene.clients.append(self)

    def more(self):
        """What comes next on standard output."""
        wait = select.poll()
        wait.register(self.program.stdout, select.POLLIN)
        if not wait.poll(PATIENCE * 1_000):
            raise Hung("no answer")
        piece = os.read(self.program.stdout.fileno(), 65_536)
        if not piece:
            raise Hung("the client ended")
        self.held += piece

    def hear(self):
        while b"\n" not in self.held:
            self.more()
        line, _, self.held = self.held.partition(b"\n")
        return line

    def take(self, size):
        while len(self.held) < size:
            self.more()
        content, self.held = self.held[:size], self.held[size:]
        return content

    def say(self, line):
        self.program.stdin.write((line if isinstance(line, bytes) else line.encode()) + b"\n")
        self.program.stdin.flush()
        return self.hear().decode(errors="replace")

    def expect(self, line, *fronts):
        answer = self.say(line)
        if not answer.startswith(fronts):
            raise Hung(f"{line if isinstance(line, str) else line.decode()}: {answer}")
        return answer

    def files(self, path=b""):
        """The contents of all files at the path and below."""
        found = {}
        rows = int(self.say(b"ls /" + path if b" " not in path else b"ls '/" + path + b"'"))
        for kind, name in [(row[:1], row[2:]) for row in [self.hear() for _ in range(rows)]]:
            below = path + b"/" + name if path else name
            if kind == b"d":
                found.update(self.files(below))
            else:
                found[below] = self.take(int(self.say(b"cat /" + below if b" " not in below else b"cat '/" + below + b"'")))
        return found

    def told(self):
        """What it has said on standard error."""
        self.said.flush()
        with open(self.said.name, errors="replace") as said:
            return said.read().splitlines()

    def quit(self):
        self.say("quit")
        self.program.stdin.close()
        self.program.wait(PATIENCE)

    def end(self):
        end(self.program)
        for stream in (self.program.stdout, self.said):
            stream.close()
        with contextlib.suppress(OSError):
            self.program.stdin.close()


class Scene:
    """A server, and a surrogate near it, which stands on a machine that is as far from the client's as this one allows."""

    def __init__(self, room, name, is_other, is_apart):
        self.folder, self.programs, self.work = f"{room}/{name}", f"{room}/programs", f"{room}/{name}/work"
        for it in ("", "work", "there", "image", "far-image"):
            os.mkdir(f"{self.folder}/{it}")
            os.chmod(f"{self.folder}/{it}", 0o755)
        self.clients = []
        self.far, environment = self.place(is_other)
        environment["HAURPIKO_APART"] = "1" if is_apart else "0"
        server, surrogate = free_port(), free_port()
        self.at_server, self.link, self.files_link = f"127.0.0.1:{server}", Link(), Link()
        quiet = {"stdout": subprocess.DEVNULL, "stderr": subprocess.DEVNULL}
        self.server = start([f"{self.programs}/server", "run", self.at_server, f"{self.folder}/image/server", "65536"], **quiet)
        await_port(server)
        words = ["run", f"127.0.0.1:{surrogate}", self.at_server, self.work, "65536"]
        self.surrogate = start([*self.far, f"{self.programs}/surrogate", *words], env=environment, **quiet)
        await_port(surrogate)
        self.front = self.link.front(surrogate, "surrogate")
        self.files_front = self.files_link.front(server, "server")

    def place(self, is_other):
        """The words before a program that stands there, and its variables."""
        if not CAN_PART:
            return [], dict(os.environ)
        script = ['hostname faraway', f'mount --bind "{self.folder}/there" "{self.work}"', f'mount -t tmpfs none "{CACHE}"']
        as_user = f"setpriv --reuid {NOBODY} --regid {NOBODY} --clear-groups " if is_other else ""
        if is_other:
            os.chown(f"{self.folder}/there", NOBODY, NOBODY)
            os.chown(f"{self.folder}/far-image", NOBODY, NOBODY)
        environment = {"PATH": "/usr/bin:/bin", "TZ": "Asia/Tokyo", "HOME": "/nonexistent", "USER": "nobody"}
        return ["unshare", "--uts", "--mount", "sh", "-c", f'{" && ".join(script)} && exec {as_user}"$@"', "sh"], environment

    def end(self):
        for client in self.clients:
            client.end()
        for program in (self.surrogate, self.server):
            end(program)
        for link in (self.link, self.files_link):
            link.end()
        shutil.rmtree(self.folder, ignore_errors=True)


def bring_in(scene, piece):
    """What the piece reads, and what is made of it before, at the server."""
    client = Client(scene, 1, "-")
    for folder, at in piece.reads:
        lines = subprocess.run([IMPORT, folder, *([at] if at else [])], stdout=subprocess.PIPE, stderr=subprocess.DEVNULL).stdout
        for line in lines.splitlines():
            client.expect(line, "logged", "synced")
    for script in piece.before:
        client.expect(pieces.shell(script), "logged")
    client.expect("sync", "synced")
    client.quit()


def play(room, piece, name, is_other, is_careful, is_apart):
    """One piece, in a scene of its own. Gives what was seen."""
    scene = None
    try:
        scene = Scene(room, name, is_other, is_apart)
        bring_in(scene, piece)
        return make_twice(scene, piece.line(is_careful), has_peers=not is_apart and (is_careful or not is_other))
    except (Hung, OSError, ValueError, subprocess.SubprocessError) as error:
        return {"outcome": f"hung: {error}", "told": "", "differ": ""}
    finally:
        if scene:
            scene.end()


def make_twice(scene, line, has_peers):
    """A command, made by a client and then again by the surrogate; and once more there by another client, to see what differs."""
    near, far = Client(scene, 1, scene.front, scene.files_front), Client(scene, 2, "-", far=True)
    far.expect("pull", "pulled")
    before = near.files()
    begun = time.monotonic()
    near.expect(line, "logged")
    is_quick = time.monotonic() - begun < QUICK
    time.sleep(APART)
    scene.link.forget()
    scene.files_link.forget()
    near.expect("sync", "synced")
    after = near.files()
    changed = changes(before, after)
    seen = {"files": len(changed), "bytes": sum(map(len, changed.values())), "operation": scene.link.up}
    other = None
    if is_quick:
        far.expect(line, "logged", "nothing", "not run")
        other = changes(before, far.files())
    seen.update(outcome(near, scene, changed, other))
    if has_peers:
        seen.update(peers(scene, before, after, changed))
    near.quit()
    far.quit()
    return seen


def changes(before, after):
    return {path: content for path, content in after.items() if before.get(path) != content}


def outcome(near, scene, changed, other):
    """Which way the entry went, what the client said of it, and how another run there differs, where one was made."""
    told = [it for it in near.told() if it.startswith("client: entry")]
    is_done, was_asked = not scene.files_link.talks.get("server"), bool(scene.link.talks.get("surrogate"))
    word = "files" if not was_asked else "declined" if not is_done else ""
    other = changed if other is None else other
    differ = [path for path in sorted(set(changed) | set(other)) if changed.get(path) != other.get(path)]
    if is_done:
        word = "done" if not differ else "renamed" if set(changed) != set(other) else "repaired"
    return {"outcome": word, "told": told[-1] if told else "", "differ": "; ".join(difference(changed, other, path) for path in differ[:3])}


def difference(changed, other, path):
    """How the two contents of a path differ."""
    name, one, two = path.decode(errors="replace"), changed.get(path), other.get(path)
    if one is None or two is None:
        return f"{name} in one of them"
    if len(one) != len(two):
        return f"{name}: {len(one):,} and {len(two):,} bytes"
    return f"{name}: {sum(a != b for a, b in zip(one, two)):,} bytes"


def peers(scene, before, after, changed):
    """What rsync moves to a folder that has what was there before, and what xz makes of the files that changed."""
    found = {}
    for name, files in (("before", before), ("after", after)):
        write(f"{scene.folder}/{name}", files, {} if name == "before" else changed)
    if shutil.which("rsync"):
        found["rsync"], found["rsync_z"] = rsync_bytes(scene.folder), rsync_bytes(scene.folder, "-z")
    if shutil.which("xz"):
        names = b"\0".join(sorted(changed))
        tar = subprocess.run(["tar", "-C", f"{scene.folder}/after", "--null", "-T", "-", "-cf", "-"], input=names, stdout=subprocess.PIPE)
        found["xz"] = len(subprocess.run(["xz", "-6", "-T1"], input=tar.stdout, stdout=subprocess.PIPE).stdout)
    return found


def write(folder, files, changed):
    """Writes files, those that did not change with one old time."""
    for path, content in files.items():
        file = os.path.join(os.fsencode(folder), path)
        os.makedirs(os.path.dirname(file), exist_ok=True)
        with open(file, "wb") as it:
            it.write(content)
        if path not in changed:
            os.utime(file, (1_577_836_800, 1_577_836_800))


def rsync_bytes(folder, *options):
    """What rsync sends to a daemon."""
    shutil.copytree(f"{folder}/before", f"{folder}/peer", copy_function=shutil.copy2)
    port = free_port()
    with open(f"{folder}/rsync.conf", "w") as conf:
        owner = "uid = 0\ngid = 0\n" if IS_ROOT else ""
        conf.write(f"use chroot = no\n{owner}[all]\npath = {folder}/peer\nread only = no\n")
    words = ["rsync", "--daemon", "--no-detach", f"--config={folder}/rsync.conf", f"--port={port}", "--address=127.0.0.1"]
    daemon = start([*words, f"--log-file={folder}/rsync.log"], stdout=subprocess.DEVNULL, stderr=subprocess.DEVNULL)
    await_port(port)
    link = Link()
    address = link.front(port, "rsync")
    subprocess.run(["rsync", "-rt", "--delete", *options, f"{folder}/after/", f"rsync://{address}/all/"], check=True, timeout=PATIENCE)
    end(daemon)
    link.end()
    if subprocess.run(["diff", "-rq", f"{folder}/peer", f"{folder}/after"], stdout=subprocess.DEVNULL).returncode:
        raise Hung("rsync did not carry the files")
    shutil.rmtree(f"{folder}/peer")
    return link.up


def end_all(*_):
    """Ends what was started, so that each scene ends, too."""
    over.set()
    with lock:
        left = [program for program in started if program.poll() is None]
    for program in left:
        program.kill()


def stop(*_):
    end_all()
    raise SystemExit(143)


def ways_of(piece):
    """The ways that a piece is played: whether the surrogate is another user, whether the command is written with care, and whether
    it runs apart."""
    careful = piece.has_careful()
    ways = [("same", False, False, False), ("careful", CAN_PART, True, False)] if careful else [("same", False, False, False)]
    others = [("other", True, False, False), ("apart_user", True, careful, True)] if CAN_PART else []
    return [*ways, ("apart", False, careful, True), *others]


def play_all(room, chosen):
    """Each piece in its ways, as many side by side as there are processors."""
    rows, parts = collections.defaultdict(dict), {}
    with concurrent.futures.ThreadPoolExecutor(os.cpu_count()) as pool:
        for place, piece in enumerate(chosen):
            for way, *how in ways_of(piece):
                parts[pool.submit(play, room, piece, f"{place}-{way}", *how)] = (piece.name, way)
        for part in concurrent.futures.as_completed(parts):
            name, way = parts[part]
            seen = part.result()
            rows[name][way] = seen
            print(f"  {name}, {way}: {seen['outcome']} {seen.get('operation', 0):,} for {seen.get('bytes', 0):,}"
                  f"  {seen['told']} {seen.get('differ', '')}", file=sys.stderr, flush=True)
    for piece in chosen:
        if not piece.has_careful():
            rows[piece.name]["careful"] = rows[piece.name].get("other") or rows[piece.name]["same"]
    return [(piece, rows[piece.name]) for piece in chosen]


def main():
    programs, names = sys.argv[1], sys.argv[2:]
    signal.signal(signal.SIGTERM, stop)
    room = tempfile.mkdtemp(prefix="haurpiko-room-")
    try:
        os.chmod(room, 0o755)
        os.mkdir(f"{room}/programs")
        for name in ("client", "server", "surrogate"):
            shutil.copy(f"{programs}/{name}", f"{room}/programs/{name}")
            os.chmod(f"{room}/programs/{name}", 0o755)
        wanted = [it for it in pieces.pieces() if not names or it.name in names]
        chosen = [it for it in wanted if it.is_there()]
        for it in wanted:
            if it not in chosen:
                print(f"left out: {it.name}: {', '.join(it.wants)} or a source is missing", file=sys.stderr)
        rows = play_all(room, chosen)
    finally:
        end_all()
        shutil.rmtree(room, ignore_errors=True)
    raise SystemExit(table.show(rows, OUT, CAN_PART, bool(names)))


main()
