"""Refuses each allocation of a program in turn. run.sh says what is compared, and how it is run."""

import collections
import itertools
import os
import signal
import socket
import subprocess
import sys
import tempfile
import threading
from concurrent.futures import ThreadPoolExecutor

PROGRAMS = {name: os.environ[name.upper()] for name in ("client", "server", "surrogate")}
FAIL_NTH = os.environ["FAIL_NTH_SO"]
CLIENT_NUMBER, READER_NUMBER = 1, 2
CONNECTIONS = "256"
PATIENCE = 120  # seconds for a session
SIDE_BY_SIDE = os.cpu_count() or 1

# Each command of a session, some refusals, two syncs and a pull. The first command's output is longer than its operation, so that it is
# sent to the surrogate.
LINES = """mkdir d
cd d
put a 'two words'
put b other
run env=PATH=/usr/bin:/bin -- /bin/sh -c 'seq 400 > c; cat a b > e'
cat a
ls
ls /
rm /d
nothing
cat 'open
mv a f
run env=PATH=/usr/bin:/bin -- /bin/sh -c 'exit 3'
status
sync
rm b
put /g x
run env=PATH=/usr/bin:/bin in=/g -- /bin/sh -c 'seq 300 > h'
sync
pull
status
quit
"""
SHOWN = "".join(f"{line}\n" for line in ("ls /", "ls d", "cat d/a", "cat d/b", "cat d/c", "cat d/e", "cat d/f", "cat d/h", "cat g"))
MEMORY = 7  # the status of a program that memory ran out for
CANNOT_LISTEN = 1  # that of one that cannot listen, which says why
PORTS, PORT_LOCK = itertools.count(20000 + os.getpid() % 6000), threading.Lock()


class Wrong(Exception):
    """What was seen is not what is wanted."""


def expect(good, what):
    if not good:
        raise Wrong(what)


def free_address():
    """An address that nothing has, and that the system gives to no connection of its own accord."""
    with PORT_LOCK:
        for port in PORTS:
            with socket.socket() as free:
                try:
                    free.bind(("127.0.0.1", port))
                except OSError:
                    continue
                return f"127.0.0.1:{port}"


def is_over(program, seconds):
    """Whether it ends within this time."""
    try:
        program.wait(seconds)
    except subprocess.TimeoutExpired:
        return False
    return True


def is_for_memory(program):
    """Whether it ended for want of memory, and says so."""
    if program.returncode == CANNOT_LISTEN:
        return "cannot listen" in program.said and "out of memory" in program.said
    return program.returncode == MEMORY


class Run:
    """A folder, a server and a surrogate, of which one program has its allocation of this number refused: none where it is 0."""

    def __init__(self, folder, name, number):
        self.folder, self.name, self.number = folder, name, number
        self.server, self.surrogate = free_address(), free_address()
        self.met = self.path("met")
        self.started, self.serving = [], {}

    def path(self, name):
        return os.path.join(self.folder, name)

    def environment(self, name):
        refused = {"LD_PRELOAD": FAIL_NTH, "FAIL_NTH": str(self.number), "MET_TO": self.met}
        return {**os.environ, **(refused if name == self.name else {})}

    def words(self, name):
        if name == "server":
            return [PROGRAMS[name], "run", self.server, self.path("server.image"), CONNECTIONS]
        return [PROGRAMS[name], "run", self.surrogate, self.server, self.path("work"), CONNECTIONS]

    def start(self, name, environment):
        """Starts a server or a surrogate, and waits until it listens or ends."""
        program = subprocess.Popen(self.words(name), env=environment, stdin=subprocess.DEVNULL, stdout=subprocess.DEVNULL,
                                   stderr=subprocess.PIPE, text=True)
        self.started.append(program)
        program.said = ""
        for line in program.stderr:
            program.said += line
            if "listens at" in line:
                break
        return program

    def serve(self, name):
        """Starts one as the run says. Where it ends for want of memory, it is started again."""
        self.serving[name] = self.start(name, self.environment(name))
        self.look_after(0.02)

    def look_after(self, seconds):
        """Starts those again that end within this time, each for want of memory, as a service's manager does."""
        for name, program in self.serving.items():
            if is_over(program, seconds):
                expect(is_for_memory(program), f"the {name} ended with status {program.returncode}: {program.said}")
                self.serving[name] = self.start(name, os.environ)
                expect(not is_over(self.serving[name], 0.02), f"the {name} does not start again")

    def session(self, number, image, lines, environment=os.environ):
        """A client's session: its status and answers."""
        words = [PROGRAMS["client"], "run", str(number), self.path(image), self.server, self.surrogate, self.path("work")]
        client = subprocess.Popen(words, env=environment, stdin=subprocess.PIPE, stdout=subprocess.PIPE, stderr=subprocess.DEVNULL)
        self.started.append(client)
        with ThreadPoolExecutor(1) as talk:
            talking = talk.submit(client.communicate, lines.encode(), PATIENCE)
            while not talking.done():
                self.look_after(0.005)
            answers, _ = talking.result()
        return client.returncode, answers

    def end(self):
        for program in self.started:
            if program.poll() is None:
                program.send_signal(signal.SIGKILL)
            program.wait()
            for stream in (program.stdin, program.stdout, program.stderr):
                if stream:
                    stream.close()


def shown(run, number, image, first):
    """What a client has behind these lines: the answers of those, and what all files are."""
    status, answers = run.session(number, image, first + SHOWN)
    expect(status == 0, f"the next session of client {number} ended with status {status}")
    lines = answers.split(b"\n")
    count = first.count("\n")
    return lines[:count], b"\n".join(lines[count:-2])


def look_behind(run, answers):
    """Opens what was kept: what was answered is there, or one entry more, and is taken by the server, whose files another client gets."""
    logged = [int(line.split()[1]) for line in answers.split(b"\n") if line.startswith(b"logged ")]
    last = max(logged, default=0)
    (status, synced, _pulled), mine = shown(run, CLIENT_NUMBER, "client.image", "status\nsync\npull\n")
    _, acknowledged, _, pending = status.split()
    kept = int(acknowledged) + int(pending)
    expect(kept in (last, last + 1), f"{last} entries were answered, and {kept} are kept")
    expect(synced == b"synced %d" % kept, f"the next sync answers {synced}")
    _, others = shown(run, READER_NUMBER, "reader.image", "pull\n")
    expect(mine == others, "another client gets other files")


def judge(run, all_answers):
    """Runs a session, and tells what came of it: a word for the table."""
    for name in ("server", "surrogate"):
        run.serve(name)
    status, answers = run.session(CLIENT_NUMBER, "client.image", LINES, run.environment("client"))
    if all_answers is None:
        return answers
    look_behind(run, answers)
    if not os.path.exists(run.met):
        return None
    if status == 0 and answers == all_answers:
        ended = [program.returncode for program in run.started if program.returncode]
        return f"status {ended[0]}, and all was answered once it was started again" if ended else "all was answered without it"
    if run.name == "client" and status == MEMORY and all_answers.startswith(answers):
        return "status 7 behind a front of the answers"
    raise Wrong(f"status {status}, answers {answers!r}")


def one(name, number, all_answers=None):
    """The run in which this allocation of the program is refused."""
    with tempfile.TemporaryDirectory(prefix="refused-") as folder:
        run = Run(folder, name, number)
        try:
            return judge(run, all_answers)
        except (Wrong, subprocess.TimeoutExpired) as wrong:
            return f"WRONG at allocation {number}: {wrong}"
        finally:
            run.end()


def refuse_all(name):
    """Refuses allocation after allocation, until a run has fewer. Prints what came, and gives whether all was as wanted."""
    all_answers = one(name, 0)
    expect(isinstance(all_answers, bytes), f"{name}: {all_answers}")
    came, number, is_over = collections.Counter(), 1, False
    with ThreadPoolExecutor(SIDE_BY_SIDE) as runs:
        while not is_over:
            numbers = range(number, number + SIDE_BY_SIDE)
            for word in runs.map(lambda n: one(name, n, all_answers), numbers):
                if word is None:
                    is_over = True
                else:
                    came[word] += 1
            number += SIDE_BY_SIDE
    expect(came, f"{name}: no allocation could be refused; is it a build of rt try?")
    for word, count in sorted(came.items()):
        print(f"{name:<10} {count:6}  {word}", flush=True)
    return not any(word.startswith("WRONG") for word in came)


def main():
    try:
        results = [refuse_all(name) for name in sys.argv[1:] or PROGRAMS]
    except Wrong as wrong:
        print(f"bench/memory/run.sh: {wrong}", file=sys.stderr)
        return 1
    return 0 if all(results) else 1


if __name__ == "__main__":
    sys.exit(main())
