"""The scenes of run.sh. With words it runs those whose names begin with one of them."""
import os
import resource
import signal
import socket
import subprocess
import sys
import tempfile
import threading
import time

SERVER, CLIENT = os.environ["SERVER"], os.environ["CLIENT"]
HEAD_OF_64_MIB = b"\x03\xff\xff\xfc"
# A frame that is no message: the server answers it, and keeps nothing.
NO_MESSAGE = b"\0\0\0\0"
# How long a scene waits for the client's answer.
PATIENCE = 600

programs, disks, lock, over = [], [], threading.Lock(), threading.Event()


def start(words, **streams):
    """Starts a program, which is ended with this one."""
    with lock:
        if over.is_set():
            raise SystemExit
        program = subprocess.Popen(words, **streams)
        programs.append(program)
        return program


def listens(port):
    """Whether something listens at the port, without a connection to it."""
    with open("/proc/net/tcp") as table:
        rows = [row.split() for row in table][1:]
    return any(row[1].endswith(f":{port:04X}") and row[3] == "0A" for row in rows)


# The frame of the first pull of client 3.
PULL = bytes((0, 0, 0, 11, 3, 3, 3)) + (1).to_bytes(8, "big")


class Scene:
    """A server of its own, and what connects to it."""

    def __init__(self, work):
        with socket.socket() as free:
            free.bind(("127.0.0.1", 0))
            self.port = free.getsockname()[1]
        self.work, self.peers = work, []
        self.serve()

    def serve(self):
        """Starts the server."""
        image = os.path.join(self.work, "server.image")
        self.server = start([SERVER, "run", f"127.0.0.1:{self.port}", image, "65536"],
                            stdin=subprocess.DEVNULL, stdout=subprocess.DEVNULL)
        while not listens(self.port):
            time.sleep(0.05)
        # The image is read behind that.
        time.sleep(1)

    def peer(self, first=b""):
        """A peer that connects, sends these bytes, and then does nothing."""
        peer = socket.create_connection(("127.0.0.1", self.port))
        peer.sendall(first)
        self.peers.append(peer)
        return peer

    def drip(self, peer, seconds):
        """Sends a byte every so many seconds, until the server has had enough."""
        def send():
            try:
                while not over.wait(seconds):
                    peer.sendall(b"\0")
            except OSError:
                pass
        threading.Thread(target=send, daemon=True).start()

    def sync(self):
        """The seconds until a client's sync is answered, and the answer."""
        image = os.path.join(self.work, "client.image")
        client = start([CLIENT, "run", "1", image, f"127.0.0.1:{self.port}", "-", "work"],
                       stdin=subprocess.PIPE, stdout=subprocess.PIPE, text=True)
        begun = time.monotonic()
        client.stdin.write("put a x\nsync\n")
        client.stdin.close()
        client.stdout.readline()
        answer = client.stdout.readline().strip()
        return time.monotonic() - begun, answer

    def sync_all(self, numbers, lines):
        """The seconds until all these clients, side by side, are answered, and how many were synced."""
        def session(number):
            image = os.path.join(self.work, f"client-{number}.image")
            client = start([CLIENT, "run", str(number), image, f"127.0.0.1:{self.port}", "-", "work"],
                           stdin=subprocess.PIPE, stdout=subprocess.PIPE, stderr=subprocess.DEVNULL, text=True)
            answers, _ = client.communicate(lines.replace("NAME", f"f{number}"))
            synced.append(answers.count("synced"))
        synced, begun = [], time.monotonic()
        threads = [threading.Thread(target=session, args=(number,), daemon=True) for number in numbers]
        for thread in threads:
            thread.start()
        for thread in threads:
            thread.join(PATIENCE)
        return time.monotonic() - begun, sum(synced)

    def handles(self):
        """How many handles the server has, and how much memory at most, in kilobytes."""
        with open(f"/proc/{self.server.pid}/status") as status:
            most = next(int(line.split()[1]) for line in status if line.startswith("VmHWM"))
        return len(os.listdir(f"/proc/{self.server.pid}/fd")), most

    def rest(self):
        """Waits until the server has done nothing for half a second, a minute at most."""
        spent = -1
        for _ in range(120):
            if self.spent() == spent:
                break
            spent = self.spent()
            over.wait(0.5)

    def spent(self):
        """The processor seconds of the server."""
        with open(f"/proc/{self.server.pid}/stat") as stat:
            fields = stat.read().rsplit(")", 1)[1].split()
        return (int(fields[11]) + int(fields[12])) / os.sysconf("SC_CLK_TCK")


def told(scene, goal):
    """What a client's sync takes now, and how much memory the server took at most, in megabytes."""
    seconds, answer = scene.sync()
    text = f"{seconds:6.2f} s  {answer:12}{scene.handles()[1] // 1024:5} MB"
    return text, answer.startswith("synced") and seconds <= goal


def silent(count, goal):
    def scene(work):
        scene = Scene(work)
        for _ in range(count):
            scene.peer()
        return told(scene, goal)
    return scene


def dripping(first, seconds, goal):
    def scene(work):
        scene = Scene(work)
        scene.drip(scene.peer(first), seconds)
        return told(scene, goal)
    return scene


def lingering(count, goal):
    def scene(work):
        scene = Scene(work)
        for _ in range(count):
            scene.peer(NO_MESSAGE)
        return told(scene, goal)
    return scene


def uploading(count, goal):
    """Peers that send a frame of 8 MiB by 32 KiB a second, which takes four minutes."""
    def scene(work):
        scene = Scene(work)

        def upload(peer):
            try:
                peer.sendall((8_388_608).to_bytes(4, "big"))
                while not over.wait(1):
                    peer.sendall(bytes(32_768))
            except OSError:
                pass
        for _ in range(count):
            threading.Thread(target=upload, args=(scene.peer(),), daemon=True).start()
        time.sleep(3)
        return told(scene, goal)
    return scene


def bringing(count, goal):
    """Peers that send the longest frames all at once, as fast as they can."""
    def scene(work):
        scene = Scene(work)

        def bring(peer):
            try:
                peer.sendall(HEAD_OF_64_MIB + bytes(67_108_860))
            except OSError:
                pass
        for _ in range(count):
            threading.Thread(target=bring, args=(scene.peer(),), daemon=True).start()
        return told(scene, goal)
    return scene


def reading_nothing(count, goal):
    """Peers that ask for 6 MiB of files, and read none of the answer. The sync is begun when the server has worked on all of them."""
    def scene(work):
        scene = Scene(work)
        scene.sync_all([2], f"put big {'x' * 6_291_456}\nsync\n")
        for _ in range(count):
            peer = socket.socket()
            peer.setsockopt(socket.SOL_SOCKET, socket.SO_RCVBUF, 4_096)
            peer.connect(("127.0.0.1", scene.port))
            peer.sendall(PULL)
            scene.peers.append(peer)
        time.sleep(1)
        scene.rest()
        return told(scene, goal)
    return scene


def side_by_side(goal):
    """All clients at once, each with two puts and two syncs, beside ten silent peers."""
    def scene(work):
        scene = Scene(work)
        for _ in range(10):
            scene.peer()
        seconds, synced = scene.sync_all(range(1, 65), "put NAME x\nsync\nput NAME y\nsync\n")
        return f"{seconds:6.1f} s  {synced} synced", synced == 128 and seconds <= goal
    return scene


def in_a_row(count, goal):
    """Connections one after the other, each with a frame that is no message; then handles and memory are as before."""
    def scene(work):
        scene = Scene(work)

        def asks(times):
            for _ in range(times):
                with socket.create_connection(("127.0.0.1", scene.port)) as peer:
                    peer.sendall(NO_MESSAGE)
                    answer = peer.recv(4_096)
                    if not answer:
                        return False
            return True
        asks(100)
        time.sleep(1)
        before = scene.handles()
        begun = time.monotonic()
        answered = asks(count)
        seconds = time.monotonic() - begun
        time.sleep(3)
        after = scene.handles()
        text = f"{seconds:6.1f} s  handles {before[0]} then {after[0]}, {after[1]} kB at most"
        return text, answered and after[0] <= before[0] and seconds <= goal
    return scene


def without_handles(work):
    """The server may open no handle for a minute. It waits for a connection with a handle in hand, which a peer takes."""
    scene = Scene(work)
    limits = resource.prlimit(scene.server.pid, resource.RLIMIT_NOFILE)
    resource.prlimit(scene.server.pid, resource.RLIMIT_NOFILE, (4, limits[1]))
    scene.peer(NO_MESSAGE).close()
    time.sleep(3)
    before = scene.spent()
    over.wait(60)
    if scene.server.poll() is not None:
        return f"ended with status {scene.server.returncode}", False
    share = (scene.spent() - before) / 60 * 100
    resource.prlimit(scene.server.pid, resource.RLIMIT_NOFILE, (64, limits[1]))
    text, good = told(scene, 10)
    return f"up, on {share:.1f} % of a processor; then {text.strip()}", good and share < 5


def on_a_full_disk(work):
    """The server keeps its image on a disk of 600 KiB, which has no room for a second one."""
    if os.geteuid() != 0:
        return "left out: only root mounts a disk", True
    disk = os.path.join(work, "disk")
    os.mkdir(disk)
    with lock:
        made = subprocess.run(["mount", "-t", "tmpfs", "-o", "size=600k", "tmpfs", disk], stderr=subprocess.DEVNULL)
        if made.returncode:
            return "left out: no disk can be mounted here", True
        disks.append(disk)
    scene = Scene(disk)

    def say(number, lines):
        client = start([CLIENT, "run", number, os.path.join(work, f"{number}.image"), f"127.0.0.1:{scene.port}", "-", "work"],
                       stdin=subprocess.PIPE, stdout=subprocess.PIPE, stderr=subprocess.DEVNULL, text=True)
        return client.communicate(lines)[0].split("\n")

    image, beside = os.path.join(disk, "server.image"), os.path.join(disk, "server.image.new")
    filled = "synced 1" in say("1", f"put a {'a' * 300_000}\nsync\n")
    scene.server.terminate()
    scene.server.wait()
    with open(image, "rb") as kept:
        before = kept.read()
    scene.serve()
    # The first change of a run writes the whole image.
    refused = "unanswered 1" in say("2", f"put b {'b' * 50_000}\nsync\n")
    status = scene.server.wait()
    with open(image, "rb") as kept:
        same = kept.read() == before
    left = os.path.exists(beside)
    scene.serve()
    read = any(line.startswith("pulled") for line in say("3", "pull\n"))
    text = f"status {status}, IMAGE {'as before' if same else 'CHANGED'}, {'IMAGE.new LEFT' if left else 'no IMAGE.new'}"
    return text + (", then pulled" if read else ", then NOT pulled"), filled and refused and status == 5 and same and not left and read


SCENES = [
    ("alone", "2 s", silent(0, 2)),
    ("1 silent peer", "2 s", silent(1, 2)),
    ("10 silent peers", "2 s", silent(10, 2)),
    ("50 silent peers", "2 s", silent(50, 2)),
    ("300 silent peers", "2 s", silent(300, 2)),
    ("drip: a byte a second from the start", "2 s", dripping(HEAD_OF_64_MIB[:1], 1, 2)),
    ("drip: 180 KiB, then a byte each 25 s", "2 s", dripping(HEAD_OF_64_MIB + bytes(184_316), 25, 2)),
    ("upload: one of 8 MiB by 32 KiB a second", "2 s", uploading(1, 2)),
    ("upload: twenty of them", "2 s", uploading(20, 2)),
    ("frames: three of 64 MiB at once", "2 s", bringing(3, 2)),
    ("pull: two that read nothing of 6 MiB", "2 s", reading_nothing(2, 2)),
    ("pull: seventy, which are more than places", "2 s", reading_nothing(70, 2)),
    ("5 peers that got their answer and stay", "2 s", lingering(5, 2)),
    ("64 clients side by side", "10 s", side_by_side(10)),
    ("5,000 connections in a row", "60 s", in_a_row(5_000, 60)),
    ("handles: none for 60 s, then 64", "up, below 5 %", without_handles),
    ("full: a disk of 600 KiB", "5, IMAGE as before, pulls go on", on_a_full_disk),
]


def main(words):
    good = True
    with tempfile.TemporaryDirectory() as top:
        def run(place, name, goal, scene):
            work = os.path.join(top, str(place))
            os.mkdir(work)
            results[name] = scene(work)

        chosen = [s for s in SCENES if not words or any(s[0].startswith(word) for word in words)]
        results = {}
        threads = [threading.Thread(target=run, args=(place, *s), daemon=True) for place, s in enumerate(chosen)]
        try:
            for thread in threads:
                thread.start()
            for thread in threads:
                thread.join(PATIENCE)
            for name, goal, _ in chosen:
                text, met = results.get(name, ("no answer", False))
                good = good and met
                print(f"{name:40} {text:60} goal: {goal} {'' if met else '(MISSED)'}".rstrip())
        finally:
            over.set()
            with lock:
                for program in programs:
                    program.kill()
                    program.wait()
                for disk in disks:
                    subprocess.run(["umount", "-l", disk], check=False)
    return 0 if good else 1


if __name__ == "__main__":
    for number in (signal.SIGHUP, signal.SIGINT, signal.SIGTERM):
        signal.signal(number, lambda caught, _: sys.exit(128 + caught))
    sys.exit(main(sys.argv[1:]))
