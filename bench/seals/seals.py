"""The parts of run.sh. With words it runs those that are named."""
import contextlib
import hmac
import itertools
import os
import pathlib
import re
import secrets
import shutil
import signal
import socket
import subprocess
import sys
import tempfile
import threading
import time

HERE = pathlib.Path(__file__).resolve().parent
sys.path[:0] = [str(HERE.parent / "link"), str(HERE.parent.parent / "oracle/fuzz")]
from proxy import Link  # noqa: E402
from values import ACCEPTED, DECLINED, DONE, OPERATE, PULL, STORE, frame, u8, u32, u64  # noqa: E402

SERVER, CLIENT, SURROGATE = (os.environ[name] for name in ("SERVER", "CLIENT", "SURROGATE"))
KEY = HERE.parent.parent / "dist" / "key"
NOBODY = 65534  # another user
MARK, SEAL = 0xE5, 37  # what stands where a plain frame has its version, and how many bytes a seal has
TO_SERVER, TO_SURROGATE, BACK = b"\1", b"\2", b"\3"
PATIENCE = 300  # seconds for a session
TURNS = 10
NO_SEAL, NO_KEY = "it has no seal", "its client has no key here"
OTHER_TAG = "its tag is of another key, another way or other bytes"


def tag_of(key, way, plain):
    return hmac.digest(key, way + plain, "sha256")


def seal(key, way, plain):
    """The frame with its seal before it."""
    return u32(SEAL - 4 + len(plain)) + u8(MARK) + tag_of(key, way, plain) + plain


def opened(key, asked, answer):
    """The frame in the answer to a sealed ask, where its seal is good."""
    plain = answer[SEAL:]
    return plain if answer == seal(key, BACK + asked[5:SEAL], plain) else None


def turned(data, place):
    """The bytes with one bit turned."""
    return data[:place] + u8(data[place] ^ 1) + data[place + 1:]


def free_port():
    with socket.socket() as free:
        free.bind(("127.0.0.1", 0))
        return free.getsockname()[1]


def ask(port, data):
    """What comes back for these bytes, or none where the connection is closed without a byte."""
    got = b""
    with socket.create_connection(("127.0.0.1", port), timeout=PATIENCE) as talk:
        try:
            talk.sendall(data)
            while piece := talk.recv(65_536):
                got += piece
        except OSError:
            pass
    return got


class Tap:
    """A port in front of another one that notes each ask with its answer, and may give an answer of its own in its place."""

    def __init__(self, behind):
        self.behind, self.talks, self.answers = behind, [], self.passed
        self.listener = socket.create_server(("127.0.0.1", 0))
        self.port = self.listener.getsockname()[1]
        threading.Thread(target=self.take_all, daemon=True).start()

    def passed(self, asked):
        return ask(self.behind, asked)

    def take_all(self):
        while True:
            try:
                talk, _ = self.listener.accept()
            except OSError:
                return
            threading.Thread(target=self.serve, args=(talk,), daemon=True).start()

    def serve(self, talk):
        with talk:
            asked = b""
            while len(asked) < 4 or len(asked) < 4 + int.from_bytes(asked[:4], "big"):
                piece = talk.recv(65_536)
                if not piece:
                    return
                asked += piece
            answer = self.answers(asked)
            self.talks.append((asked, answer))
            with contextlib.suppress(OSError):
                talk.sendall(answer)

    def asks(self, kind):
        """The sealed asks of this kind that were noted, with their answers."""
        return [(asked, answer) for asked, answer in self.talks if asked[SEAL + 5] == kind]


class Scene:
    """A server, and a surrogate where it is wanted, in a folder of their own, with keys or without."""

    def __init__(self, stack, name, clients=0, with_surrogate=False, is_logged=True, apart="0"):
        self.folder, self.faults, self.said = pathlib.Path(tempfile.mkdtemp(prefix=f"haurpiko-{name}-")), 0, {}
        stack.callback(shutil.rmtree, self.folder, ignore_errors=True)
        self.stack, self.keys, self.key, self.is_logged = stack, self.folder / "keys" if clients else None, {}, is_logged
        self.apart = apart
        if clients:
            self.keys.mkdir(mode=0o700)
        for client in range(1, clients + 1):
            subprocess.run([KEY, self.keys / f"{client}.key"], check=True)
            self.key[client] = bytes.fromhex((self.keys / f"{client}.key").read_text())
        self.port, self.near = free_port(), free_port()
        self.image = self.folder / "server.image"
        self.start("server", [SERVER, "run", f"127.0.0.1:{self.port}", self.image, "65536"], self.port)
        if with_surrogate:
            words = [SURROGATE, "run", f"127.0.0.1:{self.near}", f"127.0.0.1:{self.port}", self.folder / "work", "65536"]
            self.start("surrogate", words, self.near)

    def start(self, name, words, port):
        """Starts a node, and waits until it listens."""
        self.said[name] = self.folder / f"{name}.said"
        more = {"HAURPIKO_LOG": str(int(self.is_logged)), "HAURPIKO_APART": self.apart}
        more |= {"HAURPIKO_KEYS": str(self.keys)} if self.keys else {}
        with self.said[name].open("w") as said:
            node = subprocess.Popen(words, stdin=subprocess.DEVNULL, stdout=subprocess.DEVNULL, stderr=said, env=plain_words() | more)
        self.stack.callback(node.wait)
        self.stack.callback(node.kill)
        for _ in range(3_000):
            if f"0100007F:{port:04X} 00000000:0000 0A" in pathlib.Path("/proc/net/tcp").read_text():
                return
            if node.poll() is not None:
                break
            time.sleep(0.02)
        raise SystemExit(f"the {name} does not listen: {self.said[name].read_text()}")

    def session(self, client, lines, port=None, near=None, key=..., apart="0"):
        """What a client answers to the lines, and what it says beside. It has its key, where there are keys, or this one's file."""
        words = [CLIENT, "run", str(client), self.folder / f"{client}.image", f"127.0.0.1:{port or self.port}"]
        words += [f"127.0.0.1:{near}" if near else "-", self.folder / "own"]
        file = key if key is not ... else self.keys and self.keys / f"{client}.key"
        more = {"HAURPIKO_APART": apart} | ({"HAURPIKO_KEY": str(file)} if file else {})
        ran = subprocess.run(words, input="".join(f"{line}\n" for line in lines), stdout=subprocess.PIPE, stderr=subprocess.PIPE, text=True,
                             env=plain_words() | more, timeout=PATIENCE)
        return ran.stdout.splitlines(), ran.stderr

    def root(self):
        return subprocess.run([SERVER, "root", self.image], stdout=subprocess.PIPE, text=True, check=True).stdout.strip()

    def refusals(self, name):
        """Why the node has refused what came to it, in order."""
        return re.findall(rf"^{name}: \S+ \S+: refused: (.*)$", self.said[name].read_text(), re.M)

    def want(self, what, is_so, seen=""):
        """Tells whether something is as wanted."""
        self.faults += not is_so
        print(f"{'ok' if is_so else 'DIFFERS'}: {what}{'' if is_so else f': {seen}'}", flush=True)

    def stranger(self, what, name, data, why):
        """Whether these bytes get no answer from a node, leave what the server has, and are told as refused for this cause."""
        before, told = self.root(), len(self.refusals(name))
        answer = ask(self.port if name == "server" else self.near, data)
        for _ in range(100):
            if len(self.refusals(name)) > told:
                break
            time.sleep(0.02)
        seen = (answer.hex() or "no answer", self.refusals(name)[told:], "the same root" if self.root() == before else "another root")
        self.want(f"at the {name}, {what}: no answer, {why}", seen == ("no answer", [why], "the same root"), seen)


def plain_words():
    """The variables of this process, without those of the programs."""
    return {name: value for name, value in os.environ.items() if not name.startswith("HAURPIKO_")}


# --- Bytes ---


def bytes_of(stack, clients):
    """Up, down and connections of a sync, a pull and an operation, by the name of each; and the scene."""
    scene = Scene(stack, "bytes", clients, with_surrogate=True)
    link, costs = Link(), {}
    stack.callback(link.end)
    server, surrogate = (int(link.front(port, port).rsplit(":", 1)[1]) for port in (scene.port, scene.near))
    scripts = {
        "a put and its sync": ["put a hello", "sync"],
        "a pull": ["pull"],
        "a command and its sync": ["run env=PATH=/usr/bin:/bin -- /bin/sh -c 'seq 20000 -1 1 > numbers'", "sync"],
    }
    for name, lines in scripts.items():
        link.forget()
        answers, said = scene.session(1, lines, server, surrogate)
        costs[name] = (link.up, link.down, sum(link.talks.values()))
        is_done = any(it.startswith(("synced", "pulled")) for it in answers)
        scene.want(f"{name} is done {'with' if clients else 'without'} keys", is_done, (answers, said))
    return costs, scene


def play_bytes(stack):
    plain, first = bytes_of(stack, 0)
    sealed, second = bytes_of(stack, 1)
    for name, (up, down, talks) in plain.items():
        with_keys = sealed[name]
        print(f"{name}: {up} bytes up and {down} down without keys, {with_keys[0]} and {with_keys[1]} with, {talks} connections")
        wanted = (up + SEAL * talks, down + SEAL * talks, talks)
        second.want(f"{name}: {SEAL} bytes more a message", with_keys == wanted, (wanted, with_keys))
    return first.faults + second.faults


# --- Time ---


def play_time(stack):
    count = int(os.environ.get("SYNCS", "10000"))
    scenes = {"without keys": Scene(stack, "plain", is_logged=False), "with keys": Scene(stack, "sealed", 1, is_logged=False)}
    spent, turns = dict.fromkeys(scenes, 0.0), min(TURNS, count)
    for turn in range(turns):
        some = count * (turn + 1) // turns - count * turn // turns
        for name, scene in list(scenes.items())[:: 1 if turn % 2 == 0 else -1]:
            lines, begun = ["put a x", "sync"] * some, time.monotonic()
            answers, said = scene.session(1, lines)
            spent[name] += time.monotonic() - begun
            if sum(it.startswith("synced") for it in answers) != some:
                scene.want(f"{some} syncs {name}", False, (answers[-1:], said))
                return 1
    for name, seconds in spent.items():
        print(f"{count} syncs of one put {name}, in {turns} sessions: {seconds:.2f} s, {1_000 * seconds / count:.3f} ms each")
    return 0


# --- Strangers ---


def strangers_at_the_server(scene):
    key, pull = scene.key, frame(PULL, 1, 1)
    good = seal(key[1], TO_SERVER, pull)
    store = frame(STORE, 1, 1, u8(1))
    for kind, body in ((PULL, b""), (STORE, u8(1)), (OPERATE, b"x"), (ACCEPTED, bytes(8))):
        scene.stranger(f"a plain frame of kind {kind}", "server", frame(kind, 1, 1, body), NO_SEAL)
    scene.stranger("a seal without a frame", "server", u32(SEAL - 4) + good[4:SEAL], NO_SEAL)
    scene.stranger("client 9's pull, which has no key there", "server", seal(key[1], TO_SERVER, frame(PULL, 9, 1)), NO_KEY)
    for client in (0, 65, 255):
        scene.stranger(f"client {client}'s pull", "server", seal(key[1], TO_SERVER, frame(PULL, client, 1)), NO_KEY)
    wrong = {
        "client 1's pull by client 2's key": seal(key[2], TO_SERVER, pull),
        "client 1's store by a key of a stranger's own": seal(secrets.token_bytes(32), TO_SERVER, store),
        "an ask of the surrogate": seal(key[1], TO_SURROGATE, pull),
        "an answer to an ask": seal(key[1], BACK + good[5:SEAL], pull),
        "a tag without a way": seal(key[1], b"", pull),
        "the first bit of the tag turned": turned(good, 5),
        "the last bit of the tag turned": turned(good, SEAL - 1),
        "another client's number under a good tag": good[:SEAL + 6] + u8(2) + good[SEAL + 7:],
        "the last bit of the frame turned": turned(good, len(good) - 1),
        "a byte more behind the frame": u32(len(good) - 3) + good[4:] + b"\0",
    }
    for name, data in wrong.items():
        scene.stranger(name, "server", data, OTHER_TAG)
    answer = ask(scene.port, good)
    scene.want("at the server, the same pull with its own seal: a sealed answer", opened(key[1], good, answer) is not None, answer.hex())


def stranger_between(scene, tap):
    """A stranger on the link who answers in the server's place, each of the eight tries by another forgery."""
    before, old, own = scene.root(), tap.asks(STORE)[0][1], frame(ACCEPTED, 1, 3, u64(3))
    forgers = itertools.cycle([
        lambda _: old,  # to an ask with other bytes
        lambda _: own,
        lambda asked: seal(scene.key[2], BACK + asked[5:SEAL], own),
        lambda asked: asked,
    ])
    tap.answers = lambda asked: next(forgers)(asked)
    answers, said = scene.session(1, ["put c third", "sync", "status"], tap.port)
    is_untouched = scene.root() == before and "unanswered 3" in answers and "acknowledged 2 pending 1" in answers
    reason = "the answer is not sealed by this client's key (8 tries)"
    what = "an old answer to an ask with other bytes, a plain answer, one by another key, and the ask itself"
    scene.want(f"between, {what}: {reason}", is_untouched and reason in said, (answers, said))


def client_without_its_key(scene, client, name, key):
    before = scene.root()
    answers, said = scene.session(client, [f"put d{client} x", "sync"], key=key)
    is_refused = scene.root() == before and "unanswered 1" in answers and "closed after 0 bytes (8 tries)" in said
    scene.want(f"client {client} with {name}: closed after 0 bytes (8 tries)", is_refused, (answers, said))


def those_who_wait(scene, tap):
    """Those who ask eight times, side by side, because of the pauses between their tries."""
    told = len(scene.refusals("server"))
    calls = [(stranger_between, scene, tap), (client_without_its_key, scene, 3, "client 2's key", scene.keys / "2.key"),
             (client_without_its_key, scene, 4, "no key", None)]
    threads = [threading.Thread(target=call, args=words) for call, *words in calls]
    for thread in threads:
        thread.start()
    for thread in threads:
        thread.join()
    why = sorted(scene.refusals("server")[told:])
    scene.want("the 16 tries of clients 3 and 4 are told as refused", why == sorted([OTHER_TAG] * 8 + [NO_SEAL] * 8), why)
    tap.answers = tap.passed
    for client, number in ((1, 3), (3, 1), (4, 1)):
        answers, said = scene.session(client, ["sync"], tap.port)
        what = f"client {client} with its own key, over a link that passes all on: it is synced"
        scene.want(what, f"synced {number}" in answers, (answers, said))


def repeats_at_the_server(scene, tap):
    before = scene.root()
    for asked, answer in tap.asks(STORE):
        key, number = scene.key[asked[SEAL + 6]], int.from_bytes(asked[SEAL + 7:SEAL + 15], "big")
        if opened(key, asked, answer) is None:
            continue
        again = opened(key, asked, ask(scene.port, asked))
        is_same = again is not None and again[5] == ACCEPTED and scene.root() == before
        what = f"at the server, client {asked[SEAL + 6]}'s store {number} repeated: answered, and nothing changes"
        scene.want(what, is_same, again)


def strangers_at_the_surrogate(scene):
    key, operation = scene.key, frame(OPERATE, 1, 1, b"x")
    scene.stranger("a plain operation", "surrogate", operation, NO_SEAL)
    scene.stranger("an operation by client 2's key", "surrogate", seal(key[2], TO_SURROGATE, operation), OTHER_TAG)
    scene.stranger("an ask of the server", "surrogate", seal(key[1], TO_SERVER, operation), OTHER_TAG)
    other = seal(key[1], TO_SURROGATE, frame(OPERATE, 9, 1, b"x"))
    scene.stranger("client 9's operation, which has no key there", "surrogate", other, NO_KEY)
    tap, marks = Tap(scene.near), scene.folder / "marks"
    script = f"seq 20000 > b; echo >> {marks}"
    answers, said = scene.session(2, ["pull", f"run in=a env=PATH=/usr/bin:/bin -- /bin/sh -c '{script}'", "sync"], near=tap.port)
    scene.want("client 2's command goes as a command", "went as its command" in said, (answers, said))
    if not tap.asks(OPERATE):
        return
    before, runs, asked = scene.root(), len(marks.read_text()), tap.asks(OPERATE)[0][0]
    again = opened(key[2], asked, ask(scene.near, asked))
    is_same = again is not None and again[5] in (DONE, DECLINED) and scene.root() == before and len(marks.read_text()) == runs + 1
    what = "at the surrogate, an operation repeated: it is run again, and nothing changes"
    scene.want(what, is_same, (again, runs, len(marks.read_text())))
    scene.stranger("an operation, at the server", "server", asked, OTHER_TAG)


def play_strangers(stack):
    scene = Scene(stack, "strangers", 4, with_surrogate=True)
    tap = Tap(scene.port)
    for text in ("first", "second"):
        answers, said = scene.session(1, [f"put a {text}", "sync"], tap.port)
        scene.want(f"client 1's {text} put is synced", answers[1:2] == [f"synced {('first', 'second').index(text) + 1}"], (answers, said))
    if not scene.faults:
        strangers_at_the_server(scene)
        those_who_wait(scene, tap)
        repeats_at_the_server(scene, tap)
        strangers_at_the_surrogate(scene)
        answers, said = scene.session(1, ["pull", "cat a", "cat c"])
        wanted = ["7", "second", "6", "third", "acknowledged 3 pending 0"]
        scene.want("behind all of them client 1 pulls what clients put", answers[1:] == wanted, (answers, said))
    return scene.faults


# --- Starts ---


def play_starts(stack):
    """What a program says and ends with where a variable leads to no keys (as root also to another user's), and where a surrogate without
    keys may listen."""
    scene = Scene(stack, "starts")
    names = {name: scene.folder / name for name in ("good", "empty", "shared", "odd", "foreign")}
    for folder in names.values():
        folder.mkdir(mode=0o700)
    for name in ("good", "shared", "odd", "foreign"):
        subprocess.run([KEY, names[name] / "1.key"], check=True)
    (names["shared"] / "1.key").chmod(0o640)
    (names["odd"] / "1.key").write_text("odd\n")
    whys = {
        "empty": (names["empty"], "it has no file N.key of a client, 1 to 64"),
        "shared": (names["shared"] / "1.key", "others than its owner may read it"),
        "odd": (names["odd"] / "1.key", "it is no key of 64 hexadecimal digits and a line end"),
    }
    if os.geteuid() == 0:
        os.chown(names["foreign"] / "1.key", NOBODY, -1)
        whys["foreign"] = (names["foreign"] / "1.key", "it belongs to another user")
    for name, (place, why) in whys.items():
        for node in ("server", "surrogate"):
            ended(scene, node, "127.0.0.1:0", {"HAURPIKO_KEYS": str(names[name])}, f"{node}: no keys: {place}: {why}")
        if name != "empty":
            ended(scene, "client", "127.0.0.1:1", {"HAURPIKO_KEY": str(place)}, f"client: no key: {place}: {why}")
    for node in ("server", "surrogate"):
        ended(scene, node, "127.0.0.1:0", {"HAURPIKO_KEYS": ""}, f"{node}: no keys: HAURPIKO_KEYS names no folder")
    ended(scene, "client", "127.0.0.1:1", {"HAURPIKO_KEY": ""}, "client: no key: HAURPIKO_KEY names no file")
    refused = "surrogate: no keys: whoever reaches {} could run programs here: give HAURPIKO_KEYS=FOLDER, or HAURPIKO_OPEN=1"
    for place in ("0.0.0.0:0", "localhost:0", "[::]:0"):
        ended(scene, "surrogate", place, {}, refused.format(place))
    ended(scene, "surrogate", "127.0.0.1:0", {"HAURPIKO_OPEN": "yes"}, "surrogate: HAURPIKO_OPEN is neither 0 nor 1")
    goes_on(scene, "surrogate", "127.0.0.1:0", {}, "")
    goes_on(scene, "surrogate", "0.0.0.0:0", {"HAURPIKO_OPEN": "1"}, "surrogate: no keys: whoever reaches 0.0.0.0:0 runs programs here")
    goes_on(scene, "surrogate", "0.0.0.0:0", {"HAURPIKO_KEYS": str(names["good"])}, "")
    goes_on(scene, "server", "0.0.0.0:0", {}, "server: no keys: clients are taken on trust at 0.0.0.0:0")
    goes_on(scene, "server", "127.0.0.1:0", {}, "")
    goes_on(scene, "server", "0.0.0.0:0", {"HAURPIKO_KEYS": str(names["good"])}, "")
    return scene.faults


# --- Hidden keys ---


def play_hidden(stack):
    """What a command reads of the keys: nothing where it runs apart, at the client and at the surrogate."""
    scene = Scene(stack, "hidden", 1, with_surrogate=True, apart="1")
    told = scene.said["surrogate"]
    for _ in range(500):
        if "programs apart" in told.read_text():
            break
        time.sleep(0.02)
    if "surrogate: runs programs apart: processes, network, files" not in told.read_text():
        print("this machine keeps programs from no files: left out")
        return 0
    key = scene.keys / "1.key"
    for apart, size, way in (("1", "0", "its command"), ("0", "65", "its files")):
        line = f"run env=PATH=/usr/bin:/bin -- /bin/sh -c 'cat {key} > seen{apart}; seq 20000 > all{apart}'"
        answers, said = scene.session(1, [line, f"cat seen{apart}", "sync"], near=scene.near, apart=apart)
        is_so = answers[1:2] == [size] and ("went as its command" in said) == (way == "its command")
        where = "apart at the client" if apart == "1" else "with the client's own rights"
        scene.want(f"a command {where} reads {size} bytes of the key, and goes as {way}", is_so, (answers, said))
    return scene.faults


def words_of(node, place, folder):
    return {
        "client": [CLIENT, "run", "1", f"{folder}/image", place, "-", f"{folder}/work"],
        "server": [SERVER, "run", place, f"{folder}/image", "1"],
        "surrogate": [SURROGATE, "run", place, "127.0.0.1:1", f"{folder}/work", "1"],
    }[node]


def ended(scene, node, place, more, line):
    """Whether the program ends with status 1 and this line, and touches nothing."""
    folder = tempfile.mkdtemp(dir=scene.folder)
    ran = subprocess.run(words_of(node, place, folder), stdin=subprocess.DEVNULL, stdout=subprocess.PIPE, stderr=subprocess.PIPE, text=True,
                         env=plain_words() | more, timeout=PATIENCE)
    seen = (ran.returncode, ran.stdout, ran.stderr.splitlines(), os.listdir(folder))
    scene.want(f"status 1: {line}", seen == (1, "", [line], []), seen)


def goes_on(scene, node, place, more, line):
    """Whether the program listens, and says this line, or nothing of keys where it is empty."""
    said = pathlib.Path(tempfile.mkdtemp(dir=scene.folder)) / "said"
    with said.open("w") as file:
        ran = subprocess.Popen(words_of(node, place, said.parent), stdin=subprocess.DEVNULL, stdout=subprocess.DEVNULL, stderr=file,
                               env=plain_words() | more)
    for _ in range(1_000):
        if ran.poll() is not None or "listens at" in said.read_text():
            break
        time.sleep(0.02)
    time.sleep(0.5)
    ran.kill()
    ran.wait()
    told = said.read_text()
    lines = [it for it in told.splitlines() if "no keys" in it]
    where = f"{node} at {place}{' with keys' if 'HAURPIKO_KEYS' in more else ''}"
    scene.want(f"{where}: {line or 'nothing is said of keys'}", "listens at" in told and lines == ([line] if line else []), told)


def main(names):
    parts = {"bytes": play_bytes, "time": play_time, "strangers": play_strangers, "starts": play_starts, "hidden": play_hidden}
    faults = 0
    for name in names or parts:
        print(f"--- {name}", flush=True)
        with contextlib.ExitStack() as stack:
            faults += parts[name](stack)
    print("all is as wanted" if faults == 0 else f"{faults} differ")
    return 1 if faults else 0


if __name__ == "__main__":
    for number in (signal.SIGHUP, signal.SIGINT, signal.SIGTERM):
        signal.signal(number, lambda caught, _: sys.exit(128 + caught))
    sys.exit(main(sys.argv[1:]))
