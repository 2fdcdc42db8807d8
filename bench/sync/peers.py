"""The rounds of peers.sh: CLIENTS ROUNDS."""
import contextlib
import os
import pathlib
import resource
import shutil
import signal
import socket
import subprocess
import sys
import tempfile
import threading
import time

PATIENCE = 120  # seconds for one sync
QUIET = {"stdin": subprocess.DEVNULL, "stdout": subprocess.DEVNULL, "stderr": subprocess.DEVNULL}
TICK = 1_000 / os.sysconf("SC_CLK_TCK")  # milliseconds


def free_port():
    with socket.socket() as free:
        free.bind(("127.0.0.1", 0))
        return free.getsockname()[1]


class Peer:
    """A daemon, and clients of it: each puts one file there."""

    name = ""

    def __init__(self, stack, folder, clients):
        self.folder, self.port, self.failed = pathlib.Path(folder) / self.name.replace(" ", "-"), free_port(), 0
        self.folder.mkdir()
        self.make(clients)
        self.daemon = subprocess.Popen(self.words(), **QUIET, env=self.environment())
        stack.callback(self.daemon.wait)
        stack.callback(self.daemon.kill)
        for _ in range(1_200):
            if f"0100007F:{self.port:04X} 00000000:0000 0A" in pathlib.Path("/proc/net/tcp").read_text():
                return
            time.sleep(0.05)
        raise SystemExit(f"{self.name} does not listen")

    def environment(self):
        return None

    def make(self, clients):
        """What is there before the first round."""

    def prepare(self, client, turn):
        """What is not measured of a sync."""

    def words(self):
        raise NotImplementedError

    def sync(self, client, turn):
        """Whether one client's file has come to the daemon."""
        raise NotImplementedError

    def note(self, client, turn):
        if not self.sync(client, turn):
            self.failed += 1

    def spent(self):
        """The milliseconds of processor of the daemon and of what it has started and waited for."""
        fields = pathlib.Path(f"/proc/{self.daemon.pid}/stat").read_text().rsplit(")", 1)[1].split()
        return sum(map(int, fields[11:15])) * TICK


class Ours(Peer):
    name = "ours"

    def words(self):
        return [os.environ["SERVER"], "run", f"127.0.0.1:{self.port}", f"{self.folder}/server.image", "65536"]

    def sync(self, client, turn):
        words = [os.environ["CLIENT"], "run", f"{client + 1}", f"{self.folder}/{client}.image", f"127.0.0.1:{self.port}", "-", "work"]
        lines = f"put c{client}t{turn} hello\nsync\nquit\n"
        ran = subprocess.run(words, input=lines, stdout=subprocess.PIPE, stderr=subprocess.DEVNULL, text=True, timeout=PATIENCE)
        return "synced" in ran.stdout


class Rsync(Peer):
    name = "rsync -a"

    def make(self, clients):
        (self.folder / "there").mkdir()
        owner = "uid = 0\ngid = 0\n" if os.getuid() == 0 else ""
        conf = f"use chroot = no\n{owner}max connections = 200\n[all]\npath = {self.folder}/there\nread only = no\n"
        (self.folder / "conf").write_text(conf)

    def words(self):
        words = ["rsync", "--daemon", "--no-detach", f"--config={self.folder}/conf", f"--port={self.port}", "--address=127.0.0.1"]
        return [*words, f"--log-file={self.folder}/log"]

    def sync(self, client, turn):
        file = self.folder / f"c{client}t{turn}"
        file.write_text("hello\n")
        return subprocess.run(["rsync", "-a", file, f"rsync://127.0.0.1:{self.port}/all/"], **QUIET, timeout=PATIENCE).returncode == 0


class Git(Peer):
    name = "git push"

    def environment(self):
        who = {f"GIT_{it}_{field}": "bench@localhost" for it in ("AUTHOR", "COMMITTER") for field in ("NAME", "EMAIL")}
        return os.environ | who | {"GIT_CONFIG_NOSYSTEM": "1", "HOME": str(self.folder)}

    def git(self, *words):
        return subprocess.run(["git", *words], **QUIET, env=self.environment(), timeout=PATIENCE).returncode == 0

    def make(self, clients):
        for client in range(clients):
            self.git("init", "--bare", f"{self.folder}/there/{client}")
            self.git("init", f"{self.folder}/{client}")

    def words(self):
        # not `git daemon`, whose first process waits for another one
        daemon = subprocess.run(["git", "--exec-path"], stdout=subprocess.PIPE, text=True, check=True).stdout.strip() + "/git-daemon"
        words = [daemon, "--reuseaddr", "--enable=receive-pack", "--export-all", f"--base-path={self.folder}/there"]
        return [*words, f"--port={self.port}", "--listen=127.0.0.1", "--max-connections=200"]

    def prepare(self, client, turn):
        (self.folder / f"{client}" / f"t{turn}").write_text("hello\n")
        self.git("-C", f"{self.folder}/{client}", "add", "-A")
        self.git("-C", f"{self.folder}/{client}", "commit", "-m", "a file")

    def sync(self, client, turn):
        return self.git("-C", f"{self.folder}/{client}", "push", f"git://127.0.0.1:{self.port}/{client}", "HEAD:refs/heads/main")


def of_children():
    usage = resource.getrusage(resource.RUSAGE_CHILDREN)
    return (usage.ru_utime + usage.ru_stime) * 1_000


def play(peer, clients, turn, is_beside):
    """One turn of all clients. Gives milliseconds a sync: by the clock, of the client's processor, of the daemon's."""
    for client in range(clients):
        peer.prepare(client, turn)
    before, begun = (of_children(), peer.spent()), time.monotonic()
    if is_beside:
        threads = [threading.Thread(target=peer.note, args=(client, turn)) for client in range(clients)]
        for thread in threads:
            thread.start()
        for thread in threads:
            thread.join()
    else:
        for client in range(clients):
            peer.note(client, turn)
    seconds = time.monotonic() - begun
    return [it / clients for it in (seconds * 1_000, of_children() - before[0], peer.spent() - before[1])]


def main(clients, rounds):
    if not (1 <= clients <= 64 and rounds >= 1):
        raise SystemExit("1 to 64 clients, and a round at least")
    with contextlib.ExitStack() as stack:
        folder = tempfile.mkdtemp(prefix="haurpiko-peers-")
        stack.callback(shutil.rmtree, folder, ignore_errors=True)
        peers = [kind(stack, folder, clients) for kind in (Ours, Rsync, Git) if kind is Ours or shutil.which(kind.name.split()[0])]
        best = {}
        for turn in range(rounds):
            for is_beside in (False, True):
                for peer in peers:
                    cost = play(peer, clients, 2 * turn + is_beside, is_beside)
                    key = ("side by side" if is_beside else "in a row", peer)
                    best[key] = [min(pair) for pair in zip(best.get(key, cost), cost)]
        for (way, peer), (clock, client, daemon) in best.items():
            print(f"{way:12} {peer.name:9} {clock:7.1f} ms a sync ({1_000 / clock:6.1f} a second), of processor: client {client:6.2f} ms,"
                  f" server {daemon:6.2f} ms")
        failed = {peer.name: peer.failed for peer in peers if peer.failed}
        if failed:
            print(f"not brought: {failed}")
        return 1 if failed else 0


if __name__ == "__main__":
    for number in (signal.SIGHUP, signal.SIGINT, signal.SIGTERM):
        signal.signal(number, lambda caught, _: sys.exit(128 + caught))
    sys.exit(main(*map(int, sys.argv[1:])))
