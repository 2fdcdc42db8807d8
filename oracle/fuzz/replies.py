"""Rounds of replies to a client: a false server answers as a server does, or spoils what it answers."""

import os
import re
import socket
import threading

from play import PATIENCE, expect, expect_said, is_over, run, seen, shown, spoilt
from frames import Frames, random_reply, with_length
from values import FULL, SNAPSHOT, STALE, UNFIT, Served, read_client, read_frame

# What a line may be answered here, where names have no line ends.
ANSWERS = re.compile(rb"logged \d+|refused .+|synced \d+|stale \d+ .+ \d+ \d+|(unfit|full) \d+ \d+ .+|unanswered( \d+)?|behind \d+ \d+"
                     rb"|pulled \d+|other last \d+|older .+ \d+ \d+|acknowledged \d+ pending \d+")


def has_line_end(reply):
    """Whether a reply that a client may believe names a path with a line end."""
    read = read_frame(reply)
    if len(read) == 4 and read[0] == SNAPSHOT:
        return any(b"\n" in path for path in read[3][1].rows)
    return len(read) == 4 and read[0] in (STALE, UNFIT, FULL) and b"\n" in reply[23:]


class FalseServer:
    """It takes connections until it is ended. What it answers is spoilt so often."""

    def __init__(self, random, often, served):
        self.random, self.often, self.served = random, often, served
        self.frames = Frames(random, served)
        self.listener = socket.create_server(("127.0.0.1", 0), backlog=64)
        self.port, self.taken = self.listener.getsockname()[1], 0
        self.thread = threading.Thread(target=self.serve, daemon=True)
        self.thread.start()

    def reply(self, request):
        random, right = self.random, self.served.answer(request)
        if random.random() > self.often:
            return right
        self.frames.one()
        kind = random.random()
        reply = b"" if kind < 0.1 else random_reply(random, self.served) if kind < 0.2 else spoilt(random, right, self.frames.kept)
        reply = with_length(reply) if 0.2 < kind < 0.8 else reply + self.frames.one() if kind > 0.95 else reply
        return reply[:-1] if has_line_end(reply) else reply

    def serve(self):
        while True:
            peer, _ = self.listener.accept()
            with peer:
                peer.settimeout(PATIENCE)
                try:
                    request = b""
                    while len(request) < 4 or len(request) < 4 + int.from_bytes(request[:4], "big"):
                        piece = peer.recv(1 << 20)
                        if not piece:
                            break
                        request += piece
                    if not request:
                        return
                    self.taken += 1
                    peer.sendall(self.reply(request))
                except OSError:
                    pass

    def end(self):
        """A connection without a byte ends it."""
        socket.create_connection(("127.0.0.1", self.port)).close()
        self.thread.join()
        self.listener.close()


def random_lines(random):
    paths = [b"/" + it for it in (b"a", b"b", b"d", b"d/x", b"d/y", b"\xff")]
    return [random.choice((b"put %s text%d" % (random.choice(paths), place), b"sync", b"sync", b"pull", b"status", b"mkdir /d",
                           b"rm " + random.choice(paths))) for place in range(30)]


def to_client(random, programs, folder, cases):
    """Sessions of a client with a false server. Cases are the server's replies."""
    image, done, served = os.path.join(folder, "client.image"), 0, Served()
    while done < cases and not is_over():
        if os.path.exists(image) and random.random() < 0.2:
            os.unlink(image)
            served = Served()
        server = FalseServer(random, random.choice((0.1, 0.5, 0.9)), served)
        lines = random_lines(random)
        words = [programs["client"], "run", "1", image, f"127.0.0.1:{server.port}", "-", "work"]
        try:
            status, out, said = run(words, folder, b"\n".join(lines))
        finally:
            server.end()
        answers = out.split(b"\n")
        told = f"{shown(out)} of {lines!r}"
        expect(status == 0 and len(answers) == len(lines) + 2 and not answers[-1], f"status {status}, {said!r}, {told}")
        expect_said("client", status, said)
        for it in answers[:-1]:
            expect(ANSWERS.fullmatch(it), f"the answer {it!r} is none: {told}")
            seen["replies: " + it.split(b" ")[0].decode()] += 1
        if os.path.exists(image):
            with open(image, "rb") as it:
                read = read_client(it.read())
            expect(read, f"the image is none: {told}")
            last = b"acknowledged %d pending %d" % (read[1].acked, len(read[1].pending))
            expect(answers[-2] == last, f"the image has {last!r}: {told}")
        done += server.taken
    return done
