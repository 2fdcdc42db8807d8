"""Rounds of images, that the programs wrote themselves and that are spoilt, and rounds of words of a command line."""

import os
import time

from frames import random_store
from lines import Fault, Session, expect_answers, expect_kept, path_of, played, random_line
from play import Peer, expect, expect_said, finish, is_over, run, seen, shown, spoilt, start
from values import PULL, SNAPSHOT, Served, frame, read_client, read_server, rows_bytes, u64

RUNS = [b"run -- /bin/sh -c 'echo run > made; mkdir -p in/side; echo x > in/side/f'", b"run env=A=1 tmp=cc?? -- /bin/sh -c 'echo $A > one'",
        b"run -- /bin/sh -c 'echo ran > g/out; exit 3'", b"run -- /bin/chmod +x made", b"run in=made -- /bin/rm made"]


def with_version(data, version):
    return data[:4] + bytes([version]) + data[5:]


def write_client(random, programs, folder, number):
    """Images that a client leaves: whole ones, and ones with records."""
    served, log = Served(), None
    peer = Peer("server", [programs["server"], "run", "127.0.0.1:0", f"{number}.server", "65536"], folder)
    image, images = os.path.join(folder, f"{number}.written"), []
    for _ in range(4):
        lines = [random_line(random, 0) for _ in range(random.choice((1, 5, 20)))]
        lines += random.sample(RUNS, random.choice((0, 0, 1, 2))) + random.sample([b"sync", b"pull"], random.randrange(2))
        words = [programs["client"], "run", str(number), image, f"127.0.0.1:{peer.port}", "-", "work"]
        status, _, said = run(words, folder, b"\n".join(lines))
        expect_said("client", status, said)
        expect(status == 0, f"status {status} with {said!r}")
        if os.path.exists(image):
            with open(image, "rb") as it:
                images.append(it.read())
    finish(peer.program, kill=True)
    return images


def write_server(random, programs, folder):
    """Images that a server leaves."""
    image, served, images = os.path.join(folder, "server.written"), Served(), []
    for count in (1, 5, 20):
        peer = Peer("server", [programs["server"], "run", "127.0.0.1:0", image, str(count)], folder)
        for _ in range(count):
            stream = random_store(random, served)
            expect(peer.ask(stream) == served.answer(stream), f"{shown(stream)} is answered otherwise")
        expect(finish(peer.program) == 0, "the server does not end with 0")
        if os.path.exists(image):
            with open(image, "rb") as it:
                images.append(it.read())
    return images


def with_old(images, read):
    """Beside the images those of version 1 that are alike, where there are any."""
    return images + [old for it in images if read(old := with_version(it, 1))]


def spoilt_image(random, images):
    """An image, most often spoilt, and sometimes with a record behind it that is another one's."""
    data = random.choice(images)
    kind = random.random()
    if kind < 0.1:
        return data
    if kind < 0.2:
        return data[: random.randrange(len(data) + 1)]
    if kind < 0.25:
        return random.randbytes(random.choice((0, 1, 4, 5, 100)))
    if kind < 0.3:
        return data + random.randbytes(random.randrange(9))
    if kind < 0.35:
        return with_version(data, random.choice((0, 1, 2, 3, 255)))
    return spoilt(random, data, images)


def one_client(random, programs, folder, images, number):
    """A client on such an image: it opens it and tells its numbers, or refuses and leaves it as it is."""
    data, image = spoilt_image(random, images), os.path.join(folder, "client.image")
    with open(image, "wb") as it:
        it.write(data)
    read = read_client(data)
    is_known = read is not None and read[0] == number
    lines = [] if random.random() < 0.5 else [b"status", b"put zz x", b"ls", b"mkdir yy", b"rm a"]
    words = [programs["client"], "run", str(number), image, "127.0.0.1:1", "-", "work"]
    status, out, said = run(words, folder, b"\n".join(lines))
    expect_said("client", status, said)
    expect(status == (0 if is_known else 6), f"status {status}, {out!r}, {said!r} of a client {number} over {shown(data)}")
    if is_known:
        session = Session(number, read[1], Served())
        expect_answers(played(session, lines), out)
        seen["images: client's, opened"] += 1
    else:
        expect(not out, f"{out!r} over an image that is refused: {shown(data)}")
        seen["images: client's, refused"] += 1
    with open(image, "rb") as it:
        now = it.read()
    if is_known and lines:
        expect_kept(image, number, session.log)
    else:
        expect(now == data, f"the image was touched: {shown(data)} is {shown(now)}")
    os.unlink(image)


def one_server(random, programs, folder, images):
    """A server on such an image, which answers one pull, or refuses."""
    data, image = spoilt_image(random, images), os.path.join(folder, "server.image")
    with open(image, "wb") as it:
        it.write(data)
    served, client = read_server(data), random.randint(1, 64)
    if served:
        peer = Peer("server", [programs["server"], "run", "127.0.0.1:0", image, "1"], folder)
        came = peer.ask(frame(PULL, client, 5))
        wanted = frame(SNAPSHOT, client, 5, u64(served.last[client]) + rows_bytes(served.tree))
        expect(came == wanted, f"a pull over the image {shown(data)} is answered {shown(came)}, not {shown(wanted)}")
        expect(finish(peer.program) == 0, f"the server over {shown(data)} does not end with 0")
        seen["images: server's, opened"] += 1
    else:
        status, out, said = run([programs["server"], "run", "127.0.0.1:0", image, "1"], folder)
        expect_said("server", status, said)
        expect(status == 6 and not out, f"status {status}, {out!r}, {said!r} of a server over {shown(data)}")
        seen["images: server's, refused"] += 1
    with open(image, "rb") as it:
        expect(it.read() == data, f"the image was touched: {shown(data)}")
    os.unlink(image)


def open_images(random, programs, folder, cases):
    """Images of both kinds, each over a process of its own."""
    number = random.choice((1, 7, 64))
    of_server = with_old(write_server(random, programs, folder), read_server)
    of_client = with_old(write_client(random, programs, folder, number), read_client) if programs["client"] else []
    for case in range(cases):
        if is_over():
            return case
        strange = random.random() < 0.03
        if of_client and random.random() < 0.6:
            one_client(random, programs, folder, of_server if strange else of_client, number)
        else:
            one_server(random, programs, folder, of_client if strange and of_client else of_server)
    return cases


# ---- words

ODD = ["", "-", "--", "0", "1", "01", "+1", "65", "64", "65536", "65537", "99999999999999999999", "run", "Run", "--help", "--version", "-h",
       "127.0.0.1:0", "127.0.0.1", ":", ":0", "[::1]:0", "127.0.0.1:65536", "no.such.host.invalid:1", "127.0.0.1:-1", "a b", "'", "\n",
       "\t", "image", "x,y", ",", "127.0.0.1:1,127.0.0.1:2", ",".join("abcdefgh"), ",".join("abcdefghi"), "\x01", "n" * 300, "é", "."]


def odd_word(random):
    if random.random() < 0.9:
        return random.choice(ODD).encode()
    return bytes(random.choices([it for it in range(1, 256) if it != 47], k=random.randrange(12)))


def is_text(word):
    try:
        return word.decode() is not None
    except UnicodeDecodeError:
        return False


def is_count(word, most):
    return word.isdigit() and word[:1] != b"0" and 1 <= int(word) <= most if len(word) < 20 else False


def is_path(word):
    try:
        return path_of(word) is not None
    except Fault:
        return False


def are_apart(image, other):
    belongs = [image, image + b".new", image + b".lock"]
    return other not in belongs and image not in (other + b".new", other + b".lock")


def has_client_form(words):
    """Whether the words behind the client's name ask for something, by the forms of its `--help`."""
    if words[0] == b"run" and len(words) == 6 and all(words):
        asked = words[4].split(b",")
        return is_count(words[1], 64) and (words[4] == b"-" or len(asked) <= 8 and all(asked))
    if words[0] == b"shelve" and len(words) == 7 and all(words):
        numbers = is_count(words[1], 64) and is_count(words[3], 64) and words[1] != words[3]
        return numbers and are_apart(words[2], words[4])
    if words[0] == b"drill" and len(words) == 3:
        return (words[1] == b"0" or is_count(words[1], 65535)) and is_count(words[2], 1000)
    if words[0] == b"check" and len(words) == 3:
        return len(words[1]) == 64 and all(it in b"0123456789abcdef" for it in words[1]) and is_path(words[2])
    return False


def has_form(name, words):
    """Whether the words ask for something, by the forms of `--help`. Words that are no UTF-8 have none."""
    if not words or not is_text(b" ".join(words)):
        return False
    if name == "client":
        return has_client_form(words)
    if words[0] != b"run" or not all(words):
        return False
    return len(words) == (4 if name == "server" else 5) and is_count(words[-1], 65536)


RIGHT = {
    "client": [
        [b"run", b"1", b"image", b"127.0.0.1:1", b"-", b"work"],
        [b"shelve", b"1", b"image", b"2", b"other", b"127.0.0.1:1", b"s"],
        [b"check", b"5" * 64, b"a/b"],
        [b"drill", b"7", b"3"],
    ],
    "server": [[b"run", b"127.0.0.1:0", b"image", b"1"]],
    "surrogate": [[b"run", b"127.0.0.1:0", b"127.0.0.1:1", b"work", b"1"]],
}


def expect_client(words, status, out, told):
    """What a client with no input and no image says."""
    if words[0] == b"check":
        expect(status == 9 and out == b"refused BadCert 0\n", told)
    elif words[0] == b"drill":
        expect(status == 0 and out.startswith(b"drill " + b" ".join(words[1:]) + b"\n"), told)
    elif words[0] == b"shelve":
        expect(status in (5, 6) or status == 0 and out == b"refused NoImage\n", told)
    else:
        expect(status in (5, 6) or status == 0 and out.startswith(b"acknowledged 0 pending 0\n"), told)


def random_words(random, name):
    words = list(random.choice(RIGHT[name]))
    for _ in range(random.choice((1, 1, 2, 3))):
        at, kind = random.randrange(len(words) + 1), random.randrange(6)
        words[at : at + (kind > 0)] = [] if kind == 1 else [odd_word(random)]
    return words if random.random() < 0.95 else [odd_word(random) for _ in range(random.randrange(3))]


def one_invocation(random, name, program, folder):
    """A program with such words. Where it listens it is ended."""
    words = random_words(random, name)
    it = start([program, *words], folder, **{stream: -1 for stream in ("stdin", "stdout", "stderr")})
    it.stdin.close()
    line, until = b"", time.monotonic() + 60
    line = it.stderr.readline()
    listens = b": listens at " in line
    if listens:
        it.terminate()
    out, said = it.stdout.read(), line + it.stderr.read()
    it.stdout.close()
    it.stderr.close()
    status = finish(it, kill=listens)
    told = f"status {status}, {out!r}, {said!r} of {name} {words!r}"
    expect(time.monotonic() < until, f"more than a minute: {told}")
    if words in ([b"--help"], [b"--version"]):
        expect(status == 0 and out and not said, told)
    elif not has_form(name, words):
        expect(status == 2 and not out and said.endswith(f"{name}: see --help\n{name}: status 2\n".encode()), told)
    elif not listens:
        if name == "client":
            expect_client(words, status, out, told)
        else:
            expect(status in (1, 5, 6), told)
        expect_said(name, status, said)
    seen[f"words: {name} " + ("listens" if listens else f"status {status}")] += 1


def start_with_words(random, programs, folder, cases):
    known = [name for name in ("server", "surrogate", "client") if programs[name]]
    for case in range(cases):
        if is_over():
            return case
        name = random.choice(known)
        one_invocation(random, name, programs[name], folder)
    return cases
