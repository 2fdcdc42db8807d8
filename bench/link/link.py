"""The scenes of run.sh. With words it plays those alone."""
import contextlib
import os
import shutil
import signal
import socket
import subprocess
import sys
import tempfile
import threading
import time

from proxy import Link

SERVER, SURROGATE, CLIENT = (os.environ[it] for it in ("SERVER", "SURROGATE", "CLIENT"))
PACE = 1_200  # bytes a second of a link of 9,600 bits a second
SMALL, LARGE = 200_000, 8_384_508
MOST_BYTES = {SMALL: 335, LARGE: 4_500}  # of a command on its way up
MOST_SECONDS = 30  # of its sync on a link that is held
FILES, MOST_TALKS = 100, 14  # new files, and the connections that their sync may cost
LINES = {SMALL: (20_000, 9), LARGE: (698_709, 11)}  # how many lines of how many digits
PATIENCE = 900
started, missed, failed = [], [], []


def expect(good, what):
    if not good:
        missed.append(what)


def start(words, **streams):
    program = subprocess.Popen(words, stdin=streams.pop("stdin", subprocess.DEVNULL), **streams)
    started.append(program)
    return program


def free_port():
    with socket.socket() as free:
        free.bind(("127.0.0.1", 0))
        return free.getsockname()[1]


def await_port(port):
    """Waits until something listens at the port, without a connection to it."""
    for _ in range(1_200):
        with open("/proc/net/tcp") as table:
            rows = [row.split() for row in table][1:]
        if any(row[1].endswith(f":{port:04X}") and row[3] == "0A" for row in rows):
            return
        time.sleep(0.05)
    raise SystemExit("a program does not listen")


def shell(script):
    return f"run env=LC_ALL=C env=PATH=/usr/bin:/bin -- /bin/sh -c '{script}'"


def input_script(size):
    """Makes lines of digits that look like chance, in no order."""
    count, digits = LINES[size]
    step = "x = x * 16807 % 2147483647"
    return f'awk "BEGIN {{ x = 1; for (i = 0; i < {count}; i++) {{ {step}; printf \\"%0{digits}d\\n\\", x % 1000000000 }} }}" > words'


class Client:
    """A client that is talked to line by line."""

    def __init__(self, scene, server, surrogate):
        words = [CLIENT, "run", "1", f"{scene.folder}/client.image", server, surrogate, f"{scene.folder}/work"]
        self.program = start(words, stdin=subprocess.PIPE, stdout=subprocess.PIPE, text=True)

    def say(self, line, wanted=None):
        """The answer to a line, and its seconds."""
        begun = time.monotonic()
        self.program.stdin.write(line + "\n")
        self.program.stdin.flush()
        answer = self.program.stdout.readline().rstrip("\n")
        if wanted is not None and answer != wanted:
            raise SystemExit(f"{line[:60]}: {answer}, and not {wanted}")
        return answer, time.monotonic() - begun

    def quit(self):
        self.say("quit")
        self.program.wait(PATIENCE)


class Scene:
    """A server and a surrogate of its own, a link to both, and a client that has synced an input and made an output of it."""

    def __init__(self, folder, pace=None):
        self.folder, self.link = folder, Link(pace)
        os.makedirs(folder)
        self.server, self.surrogate = free_port(), free_port()
        start([SERVER, "run", f"127.0.0.1:{self.server}", f"{folder}/server.image", "65536"], stdout=subprocess.DEVNULL)
        await_port(self.server)
        start([SURROGATE, "run", f"127.0.0.1:{self.surrogate}", f"127.0.0.1:{self.server}", f"{folder}/work", "65536"],
              stdout=subprocess.DEVNULL)
        await_port(self.surrogate)

    def prepare(self, size):
        """The input is synced around the link."""
        client = Client(self, f"127.0.0.1:{self.server}", "-")
        client.say(shell(input_script(size)), "logged 1 status 0")
        client.say("sync", "synced 1")
        client.quit()

    def ship(self, script, by_command):
        """The output is made, and synced over the link. Gives the seconds of the sync."""
        server = self.link.front(self.server, "server")
        surrogate = self.link.front(self.surrogate, "surrogate") if by_command else "-"
        client = Client(self, server, surrogate)
        client.say(shell(script), "logged 2 status 0")
        self.link.forget()
        _, seconds = client.say("sync", "synced 2")
        client.quit()
        return seconds


def sort_output(folder, size):
    """The output as files beside our own, for the peers: the input alone, and both."""
    os.makedirs(f"{folder}/both")
    environment = {"LC_ALL": "C", "PATH": "/usr/bin:/bin"}
    subprocess.run(["/bin/sh", "-c", input_script(size)], cwd=f"{folder}/both", env=environment, check=True)
    shutil.copytree(f"{folder}/both", f"{folder}/input", copy_function=shutil.copy2)
    subprocess.run(["/bin/sh", "-c", "sort words > sorted"], cwd=f"{folder}/both", env=environment, check=True)
    expect(os.path.getsize(f"{folder}/both/sorted") == size, f"the output has {size} bytes")


def rsync_daemon(folder, port):
    """The words of a daemon at the port, over the folder's `there`."""
    with open(f"{folder}/rsync.conf", "w") as conf:
        owner = "uid = 0\ngid = 0\n" if os.getuid() == 0 else ""
        conf.write(f"use chroot = no\n{owner}[all]\npath = {folder}/there\nread only = no\n")
    return ["rsync", "--daemon", "--no-detach", f"--config={folder}/rsync.conf", f"--port={port}", "--address=127.0.0.1",
            f"--log-file={folder}/rsync.log"]


def rsync_bytes(folder, *options):
    """What rsync moves of the folder with both to a daemon whose folder has the input."""
    shutil.copytree(f"{folder}/input", f"{folder}/there", copy_function=shutil.copy2)
    port = free_port()
    daemon = start(rsync_daemon(folder, port))
    await_port(port)
    link = Link()
    address = link.front(port, "rsync")
    subprocess.run(["rsync", "-a", *options, f"{folder}/both/", f"rsync://{address}/all/"], check=True)
    daemon.terminate()
    daemon.wait()
    with open(f"{folder}/there/sorted", "rb") as there, open(f"{folder}/both/sorted", "rb") as here:
        expect(there.read() == here.read(), "rsync carried the output")
    shutil.rmtree(f"{folder}/there")
    return f"{link.up:,} + {link.down:,}"


def xz_bytes(folder):
    packed = subprocess.run(["xz", "-9", "-c", f"{folder}/both/sorted"], stdout=subprocess.PIPE, check=True).stdout
    return f"{len(packed):,}"


def peers(folder, size):
    """Each peer's column, where it is there."""
    sort_output(folder, size)
    columns = []
    if shutil.which("rsync"):
        columns += [("rsync", rsync_bytes(folder)), ("rsync -z", rsync_bytes(folder, "-z"))]
    if shutil.which("xz"):
        columns += [("xz -9, the size alone", xz_bytes(folder))]
    return columns


def of_ours(folder, size, by_command):
    """What our sync moves, and in how many asks."""
    scene = Scene(folder)
    scene.prepare(size)
    scene.ship("sort words > sorted", by_command)
    link = scene.link
    if by_command:
        expect(link.up <= MOST_BYTES[size], f"the command of {size:,} bytes costs {link.up:,}, and not {MOST_BYTES[size]:,} at most")
        expect(link.talks == {"surrogate": 1}, f"one ask of the surrogate and none of the server: {link.talks}")
    return f"{link.up:,} + {link.down:,}"


def show_bytes(folder):
    """The table: bytes to the server and the surrogate, and back from them."""
    for size in (SMALL, LARGE):
        at = f"{folder}/{size}"
        values, command = of_ours(f"{at}-values", size, False), of_ours(f"{at}-command", size, True)
        columns = [("values", values), *peers(at, size), ("the command", command)]
        say(f"a sort's output of {size:,} bytes, bytes up + down:", *[f"  {name:22} {text}" for name, text in columns])


def show_held(folder):
    """The same at 9,600 bits a second, side by side."""
    together([lambda size=size: hold_command(f"{folder}/held-{size}", size) for size in (SMALL, LARGE)]
             + [lambda: hold_values(f"{folder}/held-values")])
    say(f"values of {LARGE:,} bytes at 9,600 bits a second: {LARGE / PACE:,.0f} s, worked out and not seen")


def hold_command(folder, size):
    scene = Scene(folder, PACE)
    scene.prepare(size)
    seconds = scene.ship("sort words > sorted", True)
    say(f"the command of {size:,} bytes at 9,600 bits a second: {seconds:.1f} s")
    expect(seconds <= MOST_SECONDS, f"the sync of the command of {size:,} bytes takes {seconds:.1f} s, and not {MOST_SECONDS} at most")


def hold_values(folder):
    scene = Scene(folder, PACE)
    scene.prepare(SMALL)
    seconds = scene.ship("sort words > sorted", False)
    say(f"values of {SMALL:,} bytes at 9,600 bits a second: {seconds:.1f} s, {scene.link.talks['server']} ask")


def make_files(folder, count):
    """So many files of six bytes."""
    os.makedirs(folder)
    for at in range(count):
        with open(f"{folder}/f{at:03}", "w") as file:
            file.write("hello\n")


def files_of_ours(folder, pace, count):
    """What a sync of so many new files moves, its connections, and its seconds."""
    scene = Scene(folder, pace)
    server = scene.link.front(scene.server, "server")
    client = Client(scene, server, "-")
    for at in range(count):
        client.say(f"put f{at:03} hello", f"logged {at + 1}")
    _, seconds = client.say("sync", f"synced {count}")
    client.quit()
    return scene.link, scene.link.talks["server"], seconds


def files_of_rsync(folder, pace, *options):
    """The same of rsync, to a daemon with an empty folder."""
    os.makedirs(f"{folder}/there")
    port, link = free_port(), Link(pace)
    start(rsync_daemon(folder, port))
    await_port(port)
    address = link.front(port, "rsync")
    begun = time.monotonic()
    subprocess.run(["rsync", "-a", *options, f"{folder}/../files/", f"rsync://{address}/all/"], check=True)
    return link, link.talks["rsync"], time.monotonic() - begun


def show_files(folder):
    """100 new files of six bytes, at full speed and at 9,600 bits a second."""
    make_files(f"{folder}/files/files", FILES)
    ways = [("ours", files_of_ours, (FILES,))]
    if shutil.which("rsync"):
        ways += [("rsync", files_of_rsync, ()), ("rsync -z", files_of_rsync, ("-z",))]
    for pace, at in ((None, "at full speed"), (PACE, "at 9,600 bits a second")):
        rows = []
        for name, way, words in ways:
            link, talks, seconds = way(f"{folder}/files/{name}{pace}", pace, *words)
            rows.append(f"  {name:10} {link.up:,} + {link.down:,} bytes, {talks} connections, {seconds:.1f} s")
            if name == "ours":
                expect(talks <= MOST_TALKS, f"{FILES} files cost {talks} connections, and not {MOST_TALKS} at most")
        say(f"{FILES} files of six bytes {at}, bytes up + down:", *rows)


def show_long(folder):
    """A command of 45 seconds, which runs once near and once far. Each run says so outside of its folder."""
    scene = Scene(f"{folder}/long")
    scene.prepare(SMALL)
    runs = f"{folder}/runs"
    seconds = scene.ship(f"echo run >> {runs}; sleep 45; sort words > sorted", True)
    with open(runs) as lines:
        count = len(lines.readlines())
    say(f"a command of 45 s: synced in {seconds:.1f} s, {scene.link.talks}, {count} runs")
    expect(scene.link.talks == {"surrogate": 1}, "a command of 45 s takes one ask of the surrogate")
    expect(count == 2, "a command of 45 s is run once by the client and once by the surrogate")


def say(*lines):
    print(*lines, sep="\n", flush=True)


def together(parts):
    """Plays the parts side by side."""
    def play(part):
        try:
            part()
        except (Exception, SystemExit) as error:
            failed.append(f"{error}")
    threads = [threading.Thread(target=play, args=(part,)) for part in parts]
    for thread in threads:
        thread.start()
    for thread in threads:
        thread.join()


SCENES = {"bytes": show_bytes, "files": show_files, "held": show_held, "long": show_long}


def main():
    signal.signal(signal.SIGTERM, lambda *_: sys.exit(143))  # ends what was started, too
    names = sys.argv[1:] or list(SCENES)
    with contextlib.ExitStack() as stack:
        folder = tempfile.mkdtemp()
        stack.callback(shutil.rmtree, folder, ignore_errors=True)
        stack.callback(lambda: [program.kill() for program in started if program.poll() is None])
        for name in names:
            together([lambda name=name: SCENES[name](folder)])
    for what in missed + failed:
        print(f"missed: {what}")
    raise SystemExit(1 if missed or failed else 0)


main()
