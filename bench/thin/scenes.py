"""The scenes of run.sh. With words it plays those whose names begin with one of them."""
import collections
import contextlib
import itertools
import os
import pathlib
import random
import select
import shutil
import signal
import subprocess
import sys
import tempfile
import threading
import time

HERE = pathlib.Path(__file__).resolve().parent
FAR = "10.9.0.2"
PATIENCE = 2_700  # seconds for one answer
LINE, DIGITS = 10, 9  # bytes of a line of the input of a sort, and its digits

# Bytes a second, seconds each way, the share that is lost, bytes of the queue at each end.
Link = collections.namedtuple("Link", "rate delay loss queue")
LINKS = {
    "2400": Link(300, 0.9, 0, 3_000),
    "9600": Link(1_200, 0.05, 0, 12_000),
    "56k": Link(7_000, 0.15, 0, 20_000),
    "1m": Link(125_000, 0.025, 0.05, 60_000),
}
# LINK/WORK/SIZE, the connections that it may ask for, and whether it is long.
Goal = collections.namedtuple("Goal", "most_opened is_long")
SCENES = {
    "2400/value/50000": Goal(2, False),
    "2400/command/20000": Goal(1, False),
    "9600/value/200000": Goal(2, False),
    "9600/value/2000000": Goal(2, True),
    "9600/command/200000": Goal(1, False),
    "56k/value/200000": Goal(2, False),
    "56k/puts/100": Goal(None, False),
    "56k/import/1000": Goal(2, False),
    "1m/value/2000000": Goal(None, False),
}
numbers, started, over, lock = itertools.count(), [], threading.Event(), threading.Lock()


def end_all():
    """Ends what was started, so that each scene ends, too."""
    over.set()
    with lock:
        for program in started:
            program.kill()


def shell(script):
    return f"run env=LC_ALL=C env=PATH=/usr/bin:/bin -- /bin/sh -c '{script}'"


def words_script(size):
    """Makes lines of digits that look like chance, in no order."""
    step = "x = x * 16807 % 2147483647"
    lines = f'for (i = 0; i < {size // LINE}; i++) {{ {step}; printf \\"%0{DIGITS}d\\n\\", x % 1000000000 }}'
    return f'awk "BEGIN {{ x = 1; {lines} }}" > words'


def value_of(size):
    """Numbers that look like chance, with spaces between: so many bytes with the line end behind."""
    chance = random.Random(5)
    return " ".join(f"{chance.randrange(10 ** DIGITS):0{DIGITS}}" for _ in range(size // LINE))[:size - 1]


class Scene:
    """A link of its own, and what stands at its ends."""

    def __init__(self, link, stack, folder):
        self.folder, self.stack = folder, stack
        self.near, self.far = (f"haurpiko-{os.getpid()}-{next(numbers)}" for _ in "nf")
        for it in (self.near, self.far):
            subprocess.run(["ip", "netns", "add", it], check=True)
            stack.callback(subprocess.run, ["ip", "netns", "del", it], check=False)
        words = [sys.executable, "-B", HERE / "tun.py", self.near, self.far, *map(str, link)]
        self.link = self.start(words, stdin=subprocess.PIPE, stdout=subprocess.PIPE, stderr=None, text=True)
        if self.link.stdout.readline() != "up\n":
            raise OSError("the link does not start")

    def start(self, words, namespace=None, **streams):
        """Starts a program, which is ended with its scene."""
        streams = {"stdin": subprocess.DEVNULL, "stdout": subprocess.DEVNULL, "stderr": subprocess.DEVNULL} | streams
        with lock:
            if over.is_set():
                raise OSError("the scenes end")
            program = subprocess.Popen([*(("ip", "netns", "exec", namespace) if namespace else ()), *words], **streams)
            started.append(program)
        self.stack.callback(program.wait)
        self.stack.callback(program.kill)
        return program

    def start_far(self, words, port):
        """Starts a program at the far end, and waits until it listens."""
        program = self.start(words, self.far)
        for _ in range(1_200):
            if program.poll() is not None:
                break
            rows = [row.split() for row in pathlib.Path(f"/proc/{program.pid}/net/tcp").read_text().splitlines()[1:]]
            if any(row[1].endswith(f":{port:04X}") and row[3] == "0A" for row in rows):
                return
            time.sleep(0.05)
        raise OSError(f"{words[0]} does not listen")

    def hold(self):
        self.ask_link("hold")

    def ask_link(self, line):
        self.link.stdin.write(f"{line}\n")
        self.link.stdin.flush()
        return self.link.stdout.readline().split()


class Client:
    """A client at the near end, which is talked to line by line."""

    def __init__(self, scene, programs, has_surrogate):
        at_server, at_surrogate = f"{FAR}:7001", f"{FAR}:7002"
        scene.start_far([programs["server"], "run", at_server, f"{scene.folder}/server.image", "65536"], 7001)
        if has_surrogate:
            # without keys it listens elsewhere than on this machine only where that is said
            words = ["env", "HAURPIKO_OPEN=1", programs["surrogate"], "run", at_surrogate, at_server, f"{scene.folder}/work", "65536"]
            scene.start_far(words, 7002)
        words = [programs["client"], "run", "1", f"{scene.folder}/client.image", at_server, at_surrogate if has_surrogate else "-",
                 f"{scene.folder}/work"]
        self.program = scene.start(words, scene.near, stdin=subprocess.PIPE, stdout=subprocess.PIPE)

    def say(self, line):
        """The answer to a line."""
        self.program.stdin.write(line.encode() + b"\n")
        self.program.stdin.flush()
        if not select.select([self.program.stdout], [], [], PATIENCE)[0]:
            return f"no answer in {PATIENCE} s"
        return self.program.stdout.readline().decode().rstrip("\n") or "the client ended"

    def expect(self, line, front):
        answer = self.say(line)
        if not answer.startswith(front):
            raise OSError(f"{line[:60]}: {answer}")


def make_small_files(folder, count):
    folder.mkdir()
    for number in range(count):
        (folder / f"f{number:04}").write_text("hello\n")


def prepare_ours(client, folder, work, size, importer):
    """What is to be synced waits; what a command reads is there before."""
    if work == "value":
        client.expect(f"put big '{value_of(size)}'", "logged")
    elif work == "puts":
        for number in range(size):
            client.expect(f"put f{number:04} hello", "logged")
    elif work == "import":
        make_small_files(folder / "files", size)
        lines = subprocess.run([importer, folder / "files"], check=True, stdout=subprocess.PIPE, text=True).stdout.splitlines()
        for line in lines[:-1] if lines[-1] == "sync" else lines:
            client.expect(line, "logged")
    else:
        client.expect(shell(words_script(size)), "logged")
        client.expect("sync", "synced")
        client.expect(shell("sort words > sorted"), "logged")


def play_ours(scene, folder, work, size, programs, importer):
    """The seconds of a sync, and what came of it."""
    client = Client(scene, programs, work == "command")
    prepare_ours(client, folder, work, size, importer)
    scene.hold()
    begun = time.monotonic()
    answer = client.say("sync")
    return time.monotonic() - begun, answer.split()[0] if answer.startswith(("synced", "unanswered")) else answer


def prepare_rsync(folder, work, size):
    """What rsync is to bring, and what is there before."""
    here, there = folder / "here", folder / "there"
    there.mkdir()
    if work == "command":
        here.mkdir()
        environment = {"LC_ALL": "C", "PATH": "/usr/bin:/bin"}
        subprocess.run(["/bin/sh", "-c", words_script(size)], cwd=here, env=environment, check=True)
        shutil.copy2(here / "words", there)
        subprocess.run(["/bin/sh", "-c", "sort words > sorted"], cwd=here, env=environment, check=True)
    elif work == "value":
        here.mkdir()
        (here / "big").write_text(value_of(size) + "\n")
    else:
        make_small_files(here, size)


def play_rsync(scene, folder, work, size, option):
    """The same by rsync, to a daemon."""
    prepare_rsync(folder, work, size)
    (folder / "conf").write_text(f"use chroot = no\nuid = 0\ngid = 0\n[all]\npath = {folder}/there\nread only = no\n")
    words = ["rsync", "--daemon", "--no-detach", f"--config={folder}/conf", f"--address={FAR}", f"--log-file={folder}/log"]
    scene.start_far([*words, "--port=7003"], 7003)
    scene.hold()
    begun = time.monotonic()
    run = scene.start(["rsync", option, f"{folder}/here/", f"rsync://{FAR}:7003/all/"], scene.near)
    try:
        status = run.wait(PATIENCE)
    except subprocess.TimeoutExpired:
        status = f"none in {PATIENCE} s"
    return time.monotonic() - begun, "there" if status == 0 else f"status {status}"


def play(top, name, who, way):
    """One scene by one program. Prints its row, and answers whether its goal is met."""
    link, work, size = name.split("/")
    with contextlib.ExitStack() as stack:
        folder = pathlib.Path(tempfile.mkdtemp(dir=top))
        try:
            scene = Scene(LINKS[link], stack, folder)
            seconds, outcome = way(scene, folder, work, int(size))
            up, down, dropped, opened = map(int, scene.ask_link("count"))
        except (OSError, ValueError, subprocess.SubprocessError) as error:
            if not over.is_set():
                print(f"{name:20} {who:10} failed: {error}", flush=True)
            return False
    most = SCENES[name].most_opened
    is_met = who != "ours" or (outcome == "synced" and (most is None or opened <= most))
    print(f"{name:20} {who:10} {seconds:8.1f} s  {outcome:10} {opened:4} connections  {up:>9,} + {down:>9,} bytes, {dropped} dropped"
          f"{'' if is_met else f'  (MISSED: synced, with {most} connections at most)'}", flush=True)
    return is_met


def ways():
    """Who plays each scene, and how."""
    own = {name: os.environ[name.upper()] for name in ("client", "server", "surrogate")}
    importer = HERE.parent.parent / "dist/import"
    found = [("ours", lambda *it: play_ours(*it, own, importer))]
    if "BEFORE" in os.environ:
        folder = pathlib.Path(os.environ["BEFORE"]).resolve()
        theirs, beside = {name: folder / name for name in own}, folder / "import"
        found.append(("before", lambda *it: play_ours(*it, theirs, beside if beside.exists() else importer)))
    if shutil.which("rsync"):
        found += [(f"rsync {option}", lambda *it, option=option: play_rsync(*it, option)) for option in ("-a", "-az")]
    return found


def chosen(words):
    """The names of the scenes that the words name."""
    return [name for name, goal in SCENES.items()
            if name in words or (not goal.is_long and (not words or any(name.startswith(it) for it in words)))]


def main(words):
    if words == ["--list"]:
        for name, goal in SCENES.items():
            print(f"{name}{'  (long)' if goal.is_long else ''}")
        return 0
    names, results = chosen(words), []
    if not names:
        print("no scene has such a name: --list shows them", file=sys.stderr)
        return 2
    with tempfile.TemporaryDirectory(ignore_cleanup_errors=True) as top:
        threads = [threading.Thread(target=lambda *it: results.append(play(top, *it)), args=(name, *way))
                   for name in names for way in ways()]
        try:
            for thread in threads:
                thread.start()
            for thread in threads:
                thread.join()
        finally:
            end_all()
            for thread in threads:
                thread.join()
    return 0 if all(results) and len(results) == len(threads) else 1


if __name__ == "__main__":
    for number in (signal.SIGHUP, signal.SIGINT, signal.SIGTERM):
        signal.signal(number, lambda caught, _: sys.exit(128 + caught))
    sys.exit(main(sys.argv[1:]))
