"""Rounds of frames, to a server and to a surrogate. Each frame goes over a connection of its own; a second server says what comes back."""

import hashlib
import os
import time

from play import PLACES, Peer, Wrong, expect, finish, is_over, seen, shown, spoilt, weighted
from values import ACCEPTED, DECLINED, DONE, FULL, GAP, MALFORMED, OPERATE, PULL, SNAPSHOT, STALE, STORE, UNFIT
from values import Refused, Served, bases_bytes, content_bytes, effects_bytes, fault_bytes, first_frame, frame, malformed, order, path_bytes
from values import read_frame, read_server, rows_bytes, u8, u16, u32, u64

NAMES = {1: "BadLength", 2: "BadVersion", 3: "BadKind", 4: "BadClient", 5: "BadField", 6: "Trailing", 7: "not for it"}
KINDS = {ACCEPTED: "Accepted", STALE: "Stale", UNFIT: "Unfit", FULL: "Full", GAP: "Gap", SNAPSHOT: "Snapshot", DONE: "Done",
         DECLINED: "Declined"}


# ---- valid frames


def random_effect(random):
    kind = random.choices((1, 2, 3, 4, 5), (3, 8, 3, 3, 2))[0]
    path = random.choice(PLACES)
    if kind == 2:
        return kind, path, random.randbytes(random.choice((0, 1, 6, 40, 300)))
    if kind == 4:
        return kind, path, random.choice(PLACES)
    return (kind, path, random.random() < 0.5) if kind == 5 else (kind, path)


def random_effects(random, tree, often):
    """Some effects, most of which apply to the tree one behind the other. They are applied to it as far as they do."""
    effects = []
    for _ in range(random.choice((1, 1, 1, 2, 3, 7))):
        for _ in range(8):
            effect = random_effect(random)
            try:
                tree.apply(effect)
                break
            except Refused:
                if random.random() > often:
                    break
        effects.append(effect)
    return effects


def random_store(random, served):
    client = random.randint(1, 4) if random.random() < 0.9 else random.randint(1, 64)
    number = served.last[client] + random.choices((1, 0, -1, 2, -5, 9), (40, 3, 2, 2, 1, 1))[0]
    tree, parts = served.tree.copy(), b""
    count = random.choice((1, 1, 1, 2, 3, 8))
    for _ in range(count):
        before = tree.copy()
        effects = random_effects(random, tree, 0.97)
        bases = [(path, version + (random.random() < 0.01)) for path, version in before.bases(effects)]
        parts += effects_bytes(effects) + bases_bytes(bases)
    return frame(STORE, client, max(1, number), u8(count) + parts)


def large_store(random, served):
    """A store at a limit: of entries, of effects, of a content, of all contents, or of rows."""
    client, mib8 = random.randint(1, 4), 8388608
    if random.random() < 0.6:
        sizes = random.choice(([4096], [4096], [4097], [4095, 1], [4095, 2], [512] * 8, [1] * 8, [1] * 9))
        name, contents = random.randbytes(2).hex().encode(), [[b""] * it for it in sizes]
    else:
        sizes = random.choice(([mib8] * 4, [mib8] * 3 + [mib8 - 1], [mib8] * 4 + [1], [mib8 + 1], [mib8, 5]))
        name, contents = b"large", random.choice(([sizes], [[it] for it in sizes]))
        contents = [[bytes(it) for it in part] for part in contents]
    parts = [[(2, b"%s.%d.%d" % (name, at, place), it) for place, it in enumerate(part)] for at, part in enumerate(contents)]
    spelled = b"".join(effects_bytes(effects) + bases_bytes(served.tree.bases(effects)) for effects in parts)
    return frame(STORE, client, served.last[client] + 1, u8(len(parts)) + spelled)


def random_fault(random, numbers):
    number = random.choice(numbers)
    values = {7: (random.getrandbits(32),), 8: (random.getrandbits(64),), 9: (random.getrandbits(64),), 1: ()}
    paths = [random.choice(PLACES) for _ in range(2 if number == 6 else 1)]
    return fault_bytes(Refused(number, *values.get(number, paths)))


def random_cause(random):
    number = random.randint(1, 11)
    print_, other, path = bytes(32), random.randbytes(32), path_bytes(random.choice(PLACES))
    told = {1: print_ + other, 2: random.choice((b"\1" + bytes(4), b"\2" + random.randbytes(4))), 5: b"\0" + u8(random.randint(1, 255)),
            6: random.randbytes(4), 7: path, 8: path, 9: random.randbytes(4) + random_fault(random, range(1, 11)),
            10: u8(random.choice((18, 19, 20, 24)))}
    return u8(number) + told.get(number, b"")


def random_reply(random, served):
    """A frame that is for no server."""
    kind = random.choice((ACCEPTED, STALE, UNFIT, FULL, GAP, SNAPSHOT, DONE, DECLINED, MALFORMED))
    client, number = random.randint(1, 64), random.choice((1, 2, 3, 2**32, 2**64 - 1))
    upto = u64(min(2**64 - 1, number - 1 + random.randrange(3)))
    if kind == MALFORMED:
        code = random.randint(1, 7)
        return malformed(code, random.getrandbits(32) if code in (5, 6) else 0)
    body = {ACCEPTED: u64(number), STALE: upto + path_bytes(random.choice(PLACES)) + u64(3) + u64(random.randrange(3)), DONE: b"",
            UNFIT: upto + u32(1) + random_fault(random, (1, 2, 3, 4, 5, 6, 8, 10)), FULL: upto + u32(0) + random_fault(random, (7, 9)),
            GAP: u64(number - 2 if number > 1 else 0), SNAPSHOT: u64(7) + rows_bytes(served.tree), DECLINED: random_cause(random)}
    return frame(kind, client, number, body[kind])


def random_command(random):
    def some(spelling, most):
        items = [spelling() for _ in range(random.randrange(most))]
        return u16(len(items)) + b"".join(items)

    def text():
        return content_bytes(bytes(random.choices(range(1, 256), k=random.randrange(12))))

    def path():
        return path_bytes(random.choice(PLACES))

    keys = iter([content_bytes(it) for it in (b"PATH", b"A", b"\xff", b"LC_ALL")])
    env = some(lambda: next(keys) + text(), 4)
    return content_bytes(b"/no/" + random.randbytes(3).hex().encode()) + some(text, 4) + path() + env + some(path, 4) + some(
        lambda: u8(4) + b"cc??", 3)


def sketched(effects, random):
    """Effects with sketches in their contents' places. The parities are no real ones, which agreeing prints do not want."""
    spelled = u32(len(effects))
    for effect in effects:
        if effect[0] == 2:
            size = len(effect[2])
            spelled += b"\2" + path_bytes(effect[1]) + u32(size) + hashlib.sha256(effect[2]).digest()
            spelled += random.randbytes(64 * ((size + 131005) // 131006))
        else:
            spelled += effects_bytes([effect])[4:]
    return spelled


def random_operation(random, served):
    """An operation of a command that is not there, over a job that no copy has."""
    client, tree = random.randint(1, 4), served.tree.copy()
    effects = random_effects(random, tree, 0.9)
    if random.random() < 0.1:
        effects = [(2, b"big", bytes(random.choice((131006, 131007, 300000))))]
    origin = random.randbytes(32) + random.randbytes(1) + random_command(random)
    return frame(OPERATE, client, served.last[client] + 1, origin + sketched(effects, random) + bases_bytes(served.tree.bases(effects)))


def pull_of(random, served):
    return frame(PULL, random.randint(1, 64), random.getrandbits(64))


# ---- what a peer sends


def with_length(data):
    return u32(len(data) - 4) + data[4:] if len(data) >= 4 else data


class Frames:
    """Frames of all kinds for a server in some state, to be spoilt. Each serves some times."""

    def __init__(self, random, served):
        self.random, self.served, self.kept = random, served, []

    def one(self):
        if len(self.kept) < 8 or self.random.random() < 0.1:
            make = weighted(self.random, [(random_store, 8), (random_operation, 3), (random_reply, 4), (pull_of, 1)])
            self.kept = [*self.kept[-50:], make(self.random, self.served)]
        return self.random.choice(self.kept)


def random_stream(random, served, frames, valid):
    """What a peer sends over one connection. `valid` makes a valid frame that this peer is for."""
    kind = random.random()
    if kind < 0.2:
        return valid(random, served)
    if kind < 0.25:
        return frames.one()
    if kind < 0.82:
        return with_length(spoilt(random, frames.one(), frames.kept))
    if kind < 0.90:
        return spoilt(random, frames.one(), frames.kept)
    if kind < 0.93:
        return random.randbytes(random.choice((0, 1, 3, 4, 5, 14, 15, 16, 100, 5000)))
    if kind < 0.96:
        said = random.choice((0, 3, 10, 11, 12, 2**26 - 4, 2**26 - 3, 2**31, 2**32 - 1, random.getrandbits(32)))
        return u32(said) + frames.one()[4:]
    if kind < 0.98:
        return b"".join(frames.one() for _ in range(random.randrange(2, 6)))
    head = random.choice((b"\3\1\1", b"\3\2\1", b"\3\3\1", random.randbytes(3)))
    return with_length(bytes(4) + head + random.randbytes(random.randrange(99)))


def is_whole(stream):
    size = int.from_bytes(stream[:4], "big") + 4
    return len(stream) >= 4 and (size > 2**26 or len(stream) >= size)


def tell(prefix, answer):
    """Counts the answer by its kind."""
    kind = answer[5]
    seen[prefix + (f"Malformed {NAMES[answer[15]]}" if kind == MALFORMED else KINDS[kind])] += 1


def expect_answer(stream, came, wanted, prefix):
    expect(came == wanted, f"{shown(stream)} is answered {shown(came)}, not {shown(wanted)}")
    if wanted[5] != SNAPSHOT:
        expect(len(read_frame(came)) == 4, f"{shown(stream)} is answered {shown(came)}, which is no valid frame")
    tell(prefix, came)


def ask(random, peer, stream):
    return peer.ask(stream, not is_whole(stream) or random.random() < 0.5)


# ---- rounds


def valid_for_server(random, served):
    return random_store(random, served) if random.random() < 0.9 else pull_of(random, served)


def same_server(one, other):
    return other is not None and one.last == other.last and one.tree.rows == other.tree.rows


def to_server(random, programs, folder, cases):
    """Frames to a server, which ends by itself behind the last one. Its image is then what was taken."""
    image, served, is_looked = os.path.join(folder, "server.image"), Served(), False
    resets = sum(random.random() < 0.005 for _ in range(cases))
    log = {"HAURPIKO_LOG": "1"} if random.random() < 0.3 else {}
    os.environ.update(log)
    peer = Peer("server", [programs["server"], "run", "127.0.0.1:0", image, str(cases + resets)], folder)
    for name in log:
        del os.environ[name]
    at, frames = set(random.sample(range(cases), resets)), Frames(random, served)
    large = range(cases - 9, cases - 1) if random.random() < 0.1 else ()
    for case in range(cases):
        if is_over():
            finish(peer.program, kill=True)
            return case
        if case in at:
            stream = random_stream(random, served, frames, valid_for_server)
            peer.reset(stream[: len(first_frame(stream)) - 1])
        if case in large:
            stream = large_store(random, served)
        elif is_looked or case == cases - 1:
            stream = pull_of(random, served)
        else:
            stream = random_stream(random, served, frames, valid_for_server)
        wanted = served.answer(stream)
        expect_answer(stream, ask(random, peer, stream), wanted, "server: ")
        is_looked = wanted[5] == MALFORMED and case % 16 == 0  # then the next one is a pull, which has to show the state before it
    end_server(random, peer, served, resets)
    if os.path.exists(image):
        with open(image, "rb") as it:
            kept = it.read()
        expect(same_server(served, read_server(kept)), f"the image is not what was taken: {shown(kept)}")
    else:
        expect(same_server(served, Served()), "there is no image")
    return cases


def end_server(random, peer, served, resets):
    """A connection that was reset may not have counted: then it takes some more."""
    for _ in range(resets):
        time.sleep(0.05)
        if peer.program.poll() is not None:
            break
        stream = pull_of(random, served)
        try:
            came = peer.ask(stream)
        except Wrong:
            break
        expect_answer(stream, came, served.answer(stream), "server: ")
    status = finish(peer.program)
    with open(os.path.join(peer.folder, "server.out"), "rb") as it:
        out = it.read()
    expect(status == 0 and out.startswith(b"served ") and out.endswith(b"\n"), f"the server ends with {status} and {out!r}")
    expect(resets or out.endswith(b" faults 0\n"), f"the server ends with {out!r}")


def job_rows(tree):
    rows = [(path, row[1]) for path, row in sorted(tree.rows.items(), key=lambda it: order(it[0])) if row[1] is not None]
    spelled = [path_bytes(path) + (u8(2 + node[1]) + content_bytes(node[0]) if isinstance(node, tuple) else b"\1") for path, node in rows]
    return u32(len(rows)) + b"".join(spelled)


def real_operation(random, served):
    """An operation whose command a surrogate can run, and the store that agrees with it."""
    text = random.randbytes(4).hex()
    command = content_bytes(b"/bin/sh") + u16(2) + content_bytes(b"-c") + content_bytes(f"echo {text} > out".encode()) + path_bytes(b"")
    command += u16(0) + u16(0) + u16(0)
    effects = [(2, b"out", text.encode() + b"\n")]
    origin = hashlib.sha256(command + job_rows(served.tree)).digest() + b"\0" + command
    client, bases = random.randint(1, 4), served.tree.bases(effects)
    number = served.last[client] + 1
    return frame(OPERATE, client, number, origin + sketched(effects, random) + bases_bytes(bases)), (client, number, [(effects, bases)])


def to_surrogate(random, programs, folder, cases):
    """Frames to a surrogate and its server. It runs none but the commands of `real_operation`."""
    served = Served()
    server = Peer("server", [programs["server"], "run", "127.0.0.1:0", "server.image", "65536"], folder)
    words = [programs["surrogate"], "run", "127.0.0.1:0", f"127.0.0.1:{server.port}", os.path.join(folder, "work"), str(cases)]
    peer, frames = Peer("surrogate", words, folder), Frames(random, served)
    for case in range(cases):
        if is_over():
            finish(peer.program, kill=True)
            return case
        if random.random() < 0.02:
            stream, store = real_operation(random, served)
            wanted = frame(DONE, store[0], store[1])
            expect_answer(stream, ask(random, peer, stream), wanted, "surrogate: ")
            served.store(*store)
            continue
        stream = random_stream(random, served, frames, random_operation)
        read = read_frame(first_frame(stream))
        came = ask(random, peer, stream)
        if len(read) == 2 or read[0] != OPERATE:
            expect_answer(stream, came, malformed(*read) if len(read) == 2 else malformed(7), "surrogate: ")
            continue
        answer = read_frame(came)
        expect(len(answer) == 4 and answer[:3] == (DECLINED, *read[1:3]), f"{shown(stream)} is answered {shown(came)}, not declined")
        tell("surrogate: ", came)
    expect(finish(peer.program) == 0, "the surrogate does not end with 0")
    pull = frame(PULL, 9, 0)
    expect_answer(pull, server.ask(pull), served.answer(pull), "server: ")
    finish(server.program, kill=True)
    return cases
