"""Rounds of lines to a client. A second shell, with a second log and a second server, says what each line is answered."""

import os

from play import PLACES, Peer, expect, expect_said, finish, is_over, run, seen, shown, weighted
from values import MOST, Log, Refused, Served, Tree, bad_name, content_bytes, entry_bytes, order, path_bytes, read_client

FAULTS = {1: "RootFixed", 2: "NoParent", 3: "Exists", 4: "Missing", 5: "IsFolder", 6: "NotEmpty", 7: "RowsFull", 8: "FileTooLarge",
          9: "TreeFull", 10: "VersionTop"}
COUNTS = {b"put": (2,), b"mkdir": (1,), b"rm": (1,), b"mv": (2,), b"cat": (1,), b"ls": (0, 1), b"cd": (1,), b"run": range(1 << 30),
          b"status": (0,), b"sync": (0,), b"pull": (0,), b"quit": (0,)}
PROGRAMS = {b"/bin/true": (b"nothing logged status 0",), b"/bin/false": (b"nothing logged status 1",), b"/no/such": ()}


THE_END = b"(the end)"


class Fault(Exception):
    """A line that is refused, and with which words."""


def decimal(number):
    return str(number).encode()


def fault_text(refused):
    values = [decimal(it) if isinstance(it, int) else it or b"/" for it in refused.values]
    return b" ".join([FAULTS[refused.number].encode(), *values])


def pieces_of(line):
    """The line cut at each space outside quotes."""
    pieces = [b""]
    for place, it in enumerate(line.split(b"'")):
        if place:
            pieces[-1] += b"'"
        first, *others = [it] if place % 2 else it.split(b" ")
        pieces[-1] += first
        pieces += others
    return pieces


def words_of(line):
    words = []
    for place, piece in enumerate(pieces_of(line) if b"'" in line else line.split(b" ")):
        if piece[:1] == b"'":
            end = piece.find(b"'", 1)
            if end < 0:
                raise Fault(b"OpenQuote")
            piece, bad = piece[1:end], end + 1 != len(piece)
        else:
            bad = not piece or b"'" in piece
        if bad:
            raise Fault(b"BadWord " + decimal(place))
        words.append(piece)
    return words


def path_of(text):
    names = text.split(b"/") if text else []
    bad = bad_name(names)
    if bad is not None:
        raise Fault(b"BadName " + decimal(bad))
    if len(names) > 32:
        raise Fault(b"TooDeep " + decimal(len(names)))
    if len(text) > 1024:
        raise Fault(b"TooLong " + decimal(len(text)))
    return text


def captured(words, resolve):
    """The program and the inputs of a `run`, unless its words make no command."""
    options, texts = (words[: words.index(b"--")], words[words.index(b"--") + 1 :]) if b"--" in words else (words, [])
    behind = [it.partition(b"=")[2] for it in options]
    marks = [it.partition(b"=")[0] if b"=" in it else b"" for it in options]

    def refuse(name, bad):
        for place, it in enumerate(options):
            if bad(marks[place], behind[place]):
                raise Fault(name + b" " + decimal(place))

    def bad_input(mark, text):
        try:
            return mark == b"in" and resolve(text) is None
        except Fault:
            return True

    if not texts:
        raise Fault(b"NoProgram")
    refuse(b"BadOption", lambda mark, text: mark not in (b"in", b"env", b"tmp"))
    refuse(b"BadInput", bad_input)
    refuse(b"BadEnv", lambda mark, text: mark == b"env" and (b"\0" in text or text.find(b"=") < 1))
    refuse(b"BadTemplate", lambda mark, text: mark == b"tmp" and (not 1 <= len(text) <= 255 or b"/" in text or b"\0" in text))
    if texts[0][:1] != b"/":
        raise Fault(b"NotAbsolute")
    for place, it in enumerate(texts):
        if b"\0" in it:
            raise Fault(b"ZeroByte " + decimal(len(options) + 1 + place))
    size = command_size(texts, resolve(b""), [it for it in zip(marks, behind)], resolve)
    if size > MOST["command"]:
        raise Fault(b"CommandTooLong " + decimal(size))
    return texts[0], [resolve(text) for mark, text in zip(marks, behind) if mark == b"in"]


def command_size(texts, folder, options, resolve):
    env = dict(it.split(b"=", 1) for mark, it in options if mark == b"env")
    size = sum(len(content_bytes(it)) for it in texts) + len(path_bytes(folder)) + 8
    size += sum(8 + len(key) + len(value) for key, value in env.items())
    return size + sum(1 + len(it) if mark == b"tmp" else len(path_bytes(resolve(it))) for mark, it in options if mark != b"env")


class Session:
    """A second shell of a client with this log, beside a second server."""

    def __init__(self, number, log, served):
        self.number, self.log, self.served, self.folder = number, log, served, b""

    def resolve(self, word):
        return path_of(word[1:] if word[:1] == b"/" else (self.folder + b"/" + word if self.folder else word)) if word else self.folder

    def answer(self, line):
        """The answer to a line: its text, or several that may be. Nothing where the line ends the session."""
        if not line:
            return b""
        try:
            command, *words = words_of(line)
            if command not in COUNTS:
                raise Fault(b"UnknownWord")
            if len(words) not in COUNTS[command]:
                raise Fault(b"WrongCount " + decimal(len(words)))
            return None if command == b"quit" else getattr(self, "do_" + command.decode())(*words)
        except Fault as fault:
            return b"refused " + fault.args[0] + b"\n"
        except Refused as refused:
            return b"refused " + fault_text(refused) + b"\n"

    def log_effect(self, *effect):
        log, bases = self.log, self.log.tree.bases([effect])
        entry = (b"\0", [effect], bases)
        size = log.size + len(entry_bytes(entry))
        if len(log.pending) >= MOST["entries"] or size > MOST["log"]:
            raise Fault(b"LogFull %d %d" % (len(log.pending), size))
        log.tree.apply(effect)
        log.add(entry)
        return b"logged %d\n" % (log.acked + len(log.pending))

    def do_put(self, path, text):
        return self.log_effect(2, self.resolve(path), text + b"\n")

    def do_mkdir(self, path):
        return self.log_effect(1, self.resolve(path))

    def do_rm(self, path):
        return self.log_effect(3, self.resolve(path))

    def do_mv(self, path, to):
        return self.log_effect(4, self.resolve(path), self.resolve(to))

    def found(self, path):
        node = self.log.tree.node(path)
        if node is None:
            raise Refused(4, path)
        return node

    def do_cat(self, word):
        path = self.resolve(word)
        node = self.found(path)
        if not isinstance(node, tuple):
            raise Refused(5, path)
        return b"%d\n" % len(node[0]) + node[0]

    def folder_at(self, path):
        if isinstance(self.found(path), tuple):
            raise Fault(b"NotFolder " + path)
        return path

    def do_ls(self, word=b""):
        path, tree = self.folder_at(self.resolve(word)), self.log.tree
        inside = tree.children(path)
        return b"%d\n" % len(inside) + b"".join(
            (b"d " if tree.is_folder(it) else b"f ") + it.rpartition(b"/")[2] + b"\n" for it in inside)

    def do_cd(self, word):
        self.folder = self.folder_at(self.resolve(word))
        return b"at /" + self.folder + b"\n"

    def do_run(self, *words):
        program, inputs = captured(list(words), self.resolve)
        if not self.log.tree.is_folder(self.folder):
            raise Fault(b"NoFolder " + self.folder)
        for place, path in enumerate(inputs):
            if self.log.tree.node(path) is None:
                raise Fault(b"NoInput " + decimal(place))
        return tuple(it + b"\n" for it in (*PROGRAMS.get(program, ()), b"not run"))

    def do_status(self):
        return b"acknowledged %d pending %d\n" % (self.log.acked, len(self.log.pending))

    def do_sync(self):
        log = self.log
        for _, effects, bases in list(log.pending):
            came = self.served.store(self.number, log.acked + 1, [(effects, bases)])
            if came[5] != 17:
                return self.not_taken(effects, bases)
            log.acknowledge(log.acked + 1)
        return b"synced %d\n" % log.acked

    def not_taken(self, effects, bases):
        seq, tree = self.log.acked + 1, self.served.tree
        if self.served.last[self.number] + 1 < seq:
            return b"behind %d %d\n" % (seq, self.served.last[self.number])
        for path, version in bases:
            if tree.version(path) != version:
                return b"stale %d %s %d %d\n" % (seq, path, tree.version(path), version)
        place, refused = tree.apply_all(effects)
        return b"%s %d %d %s\n" % (b"full" if refused.number in (7, 9) else b"unfit", seq, place, fault_text(refused))

    def do_pull(self):
        log, tree = self.log, self.served.tree
        if log.pending:
            return b"refused Pending %d\n" % len(log.pending)
        if self.served.last[self.number] != log.acked:
            return b"other last %d\n" % self.served.last[self.number]
        for path in sorted(log.tree.rows, key=order):
            if tree.version(path) < log.tree.version(path):
                return b"older %s %d %d\n" % (path, tree.version(path), log.tree.version(path))
        log.tree = tree.copy()
        return b"pulled %d\n" % len(tree.rows)


# ---- lines


def random_word(random):
    kind = random.random()
    if kind < 0.86:
        return random.choice((b"", b"/", b"/")) + random.choice(PLACES)
    if kind < 0.91:
        return random.choice((b"/", b"", b".", b"..", b"a//b", b"d/", b"/d/x", b"x\0y", b"\r", b"-", b"--", b"''", b"sync"))
    if kind < 0.98:
        return bytes(random.choices(b"ab/'\" \\\t\xc3\xa4\xff\0.", k=random.randrange(8)))
    size = random.choice((1, 255, 256, 1024, 1025, 3000))
    return random.choice((b"n" * size, b"/".join([b"n" * 200] * (size // 200)), b"/".join([b"k"] * random.choice((31, 32, 33, 300)))))


def spelled(random, word):
    return b"'" + word + b"'" if random.random() < 0.3 or b" " in word or not word else word


def random_run(random):
    options = [random.choice((b"in=", b"env=", b"tmp=", b"env=A=", b"env==", b"tmp=a?", b"out=")) + random_word(random)
               for _ in range(random.choice((0, 0, 1, 2)))]
    program = random.choice((*PROGRAMS, b"true", b"/no/such/\xff", b"/"))
    texts = [program, *(random_word(random) for _ in range(random.choice((0, 0, 1, 3))))]
    # of the programs that are there none does anything with its words
    return b" ".join([b"run", *(spelled(random, it) for it in options), *([b"--"] if random.random() < 0.9 else []),
                      *(spelled(random, it) for it in texts)])


def random_line(random, runs):
    kind = random.random()
    if kind < 0.03:
        return bytes(random.choices(range(256), k=random.randrange(30))).replace(b"\n", b"")
    if kind < 0.04:
        return random.choice((b"", b" ", b"'", b"\t", b"status ", b" status", b"quit now", b"ls 'a", b"SYNC", b"put a b c"))
    if kind < 0.04 + runs:
        return random_run(random)
    command = weighted(random, [(b"put", 9), (b"mkdir", 3), (b"rm", 4), (b"mv", 4), (b"cat", 5), (b"ls", 5), (b"cd", 3), (b"status", 2),
                                (b"sync", 1.2), (b"pull", 1.2)])
    count = max(COUNTS[command]) if random.random() < 0.97 else random.randrange(4)
    words = [random_word(random) for _ in range(count)]
    if command == b"put" and count == 2 and random.random() < 0.7:
        words[1] = b"text %d" % random.getrandbits(20)
    return b" ".join([command, *(spelled(random, it) for it in words)])


def played(session, lines, is_cut=False):
    """The answers to these lines, the last of which is the status of the session, unless the input is cut off before it quits."""
    answers = []
    for line in lines:
        answer = session.answer(line)
        if answer is None:
            is_cut = False
            break
        answers.append((line, answer))
    return answers if is_cut else [*answers, (THE_END, session.do_status())]


def kind_of(answer):
    """The first words of an answer, as they are counted."""
    if not answer or answer[:1].isdigit():
        return "a block" if answer else "nothing"
    count = {b"refused": 2, b"nothing": 2, b"not": 2, b"other": 2}.get(answer.split(b" ")[0], 1)
    return b" ".join(answer.split(b"\n")[0].split(b" ")[:count]).decode("utf-8", "replace")


def expect_answers(answers, out):
    """These answers and no others came, one behind the other. Some lines may be answered in several ways."""
    at = 0
    for place, (line, answer) in enumerate(answers):
        ways = answer if isinstance(answer, tuple) else (answer,)
        came = next((it for it in ways if out.startswith(it, at)), None)
        expect(came is not None, f"line {place}, {shown(line)}, {line!r:.300}, is answered {out[at : at + 300]!r}, not {answer!r:.300}")
        at += len(came)
        seen["lines: " + kind_of(came)] += 1
    expect(at == len(out), f"behind the last answer comes {out[at : at + 300]!r}")


def some_lines(random, most):
    """Lines of a session; sometimes puts alone, which are more than a log takes."""
    if random.random() < 0.02:
        return [b"put /a" + random.randbytes(2).hex().encode() + b" x" for _ in range(min(most, 1100))]
    lines = [random_line(random, 0.004) for _ in range(min(most, random.choice((30, 300, 1500))))]
    if random.random() < 0.05:
        lines.insert(random.randrange(len(lines)), b"quit")
    if random.random() < 0.02:
        lines.append(b"put /a " + b"x" * random.choice((8388607, 8388608, 9000000)))
    return lines


def one_session(random, client, folder, port, session, lines):
    """A session of a client on its image. Gives how many lines were answered, and what came."""
    image, number = os.path.join(folder, f"{session.number}.image"), session.number
    given = b"\n".join(lines) + (b"\n" if random.random() < 0.7 else b"")
    is_long = random.random() < 0.01
    if is_long:
        given += b"\nput a " + b"x" * 16777216
    status, out, said = run([client, "run", str(number), image, f"127.0.0.1:{port}", "-", "work"], folder, given)
    lines = given[:16777216].split(b"\n")  # some words have line ends
    answers = played(session, lines[: len(lines) - is_long], is_long)
    expect_answers(answers, out)
    wanted = 0 if answers and answers[-1][0] == THE_END else 8
    expect(status == wanted, f"status {status} with {said!r}")
    expect_said("client", status, said)
    expect_kept(image, number, session.log)
    return len(answers) - (wanted == 0), out


def start_again(random, programs, folder, peer, served):
    """The server is ended and begins again: on its image, or, where that was lost, with nothing."""
    finish(peer.program, kill=True)
    image = os.path.join(folder, "server.image")
    if random.random() < 0.3 and os.path.exists(image):
        os.unlink(image)
        served.last, served.tree = [0] * 65, Tree()
    return Peer("server", [programs["server"], "run", "127.0.0.1:0", "server.image", "65536"], folder)


def to_client(random, programs, folder, cases):
    """Sessions of four clients at a time with one server, each on its image again and again."""
    served, logs, done, numbers = Served(), {}, 0, [1, 2, 3, 4]
    peer = Peer("server", [programs["server"], "run", "127.0.0.1:0", "server.image", "65536"], folder)
    while done < cases and not is_over():
        place = random.randrange(4)
        number = numbers[place]
        image = os.path.join(folder, f"{number}.image")
        if random.random() < 0.05 and os.path.exists(image):
            os.unlink(image)
            logs.pop(number)
        session = Session(number, logs.setdefault(number, Log()), served)
        answered, out = one_session(random, programs["client"], folder, peer.port, session, some_lines(random, cases - done))
        done += answered
        if b"\nstale " in out and max(numbers) < 64 and random.random() < 0.7:
            numbers[place] = max(numbers) + 1  # a stale client stays so
        if random.random() < 0.1:
            peer = start_again(random, programs, folder, peer, served)
    finish(peer.program, kill=True)
    return done


def expect_kept(image, number, log):
    """The image is that of this log."""
    if not os.path.exists(image):
        expect(not log.pending and not log.tree.rows and not log.acked, "there is no image")
        return
    with open(image, "rb") as it:
        kept = read_client(it.read())
    expect(kept is not None and kept[0] == number, "the image is none")
    alike = kept[1].acked == log.acked and len(kept[1].pending) == len(log.pending) and kept[1].tree.rows == log.tree.rows
    expect(alike, f"the image has {kept[1].acked} {len(kept[1].pending)}, and {log.acked} {len(log.pending)} were answered")
