"""The attacks of attacks.sh. With words it runs those whose names begin with one of them."""
import os
import re
import socket
import struct
import subprocess
import sys
import tempfile
import time

SERVER, CLIENT, SURROGATE = (os.environ[name] for name in ("SERVER", "CLIENT", "SURROGATE"))
RUN = "run env=PATH=/usr/bin:/bin -- /bin/sh -c '"
# A client's own WORK ends so. What is to happen at the surrogate alone asks for that.
OWN = "own"
AT_SURROGATE = f"case $PWD in */{OWN}/*) ;; *) ATTACK ;; esac; "
# How long another client's command may take behind an attack, and how long an attack, in seconds: a run has 500, and its removal two.
NEXT, WHOLE = 2, 502


def free_port():
    with socket.socket() as free:
        free.bind(("127.0.0.1", 0))
        return free.getsockname()[1]


class Scene:
    """A server and a surrogate, in a folder of their own."""

    def __init__(self, folder):
        self.folder, self.programs, self.told = folder, [], ""
        self.port, self.near = free_port(), free_port()
        self.start([SERVER, "run", f"127.0.0.1:{self.port}", f"{folder}/server.image", "65536"], "server")
        self.begin_surrogate()

    def start(self, words, name):
        """Starts a program, and waits until it listens."""
        said = open(f"{self.folder}/{name}.said", "w+")
        program = subprocess.Popen(words, stdin=subprocess.DEVNULL, stdout=subprocess.DEVNULL, stderr=said)
        self.programs.append(program)
        for _ in range(1_500):
            said.seek(0)
            if "listens at" in said.read():
                return program
            time.sleep(0.02)
        raise SystemExit(f"{name} does not listen")

    def begin_surrogate(self):
        """Starts the surrogate, and waits until it says how far it runs programs apart."""
        words = [SURROGATE, "run", f"127.0.0.1:{self.near}", f"127.0.0.1:{self.port}", f"{self.folder}/work", "65536"]
        self.surrogate = self.start(words, "surrogate")
        for _ in range(1_500):
            with open(f"{self.folder}/surrogate.said") as said:
                self.told = said.read()
            if "run programs apart" in self.told or "runs programs apart" in self.told:
                return
            time.sleep(0.02)

    def is_apart(self):
        return "runs programs apart: processes, network, files" in self.told

    def client(self, number, lines):
        """The answers of a client, what it says beside them, and the seconds that it takes."""
        words = [CLIENT, "run", str(number), f"{self.folder}/{number}.image", f"127.0.0.1:{self.port}", f"127.0.0.1:{self.near}"]
        begun = time.monotonic()
        ended = subprocess.run([*words, f"{self.folder}/{number}/{OWN}"], input=lines + "\n", capture_output=True, text=True, timeout=900)
        return ended.stdout.split("\n"), ended.stderr, time.monotonic() - begun

    def attack(self, what):
        """Sends a command that does this at the surrogate alone, and the seconds until its client is answered."""
        os.makedirs(f"{self.folder}/1", exist_ok=True)
        answers, _, seconds = self.client(1, f"{RUN}{AT_SURROGATE.replace('ATTACK', what)}seq 5000 > a'\nsync")
        return any(answer.startswith("synced") for answer in answers), seconds

    def next_command(self, number, script="seq 3000 > b"):
        """Whether another client's command goes as a command, and the seconds that it takes."""
        os.makedirs(f"{self.folder}/{number}", exist_ok=True)
        answers, said, seconds = self.client(number, f"mkdir d{number}\ncd d{number}\n{RUN}{script}'\nsync")
        return "went as its command" in said and any(answer.startswith("synced") for answer in answers), seconds

    def end(self):
        for program in self.programs:
            program.kill()
            program.wait()


def judged(scene, ended, seconds):
    """What came of an attack and of the next client's command, and whether both are as wanted."""
    done, took = scene.next_command(2)
    text = f"{'ended' if ended else 'NOT ENDED'} {seconds:6.1f} s; next command {'done' if done else 'NOT DONE'} {took:5.2f} s"
    return text, ended and done and seconds <= WHOLE and took <= NEXT


def chain(count):
    def attack(scene):
        text, good = judged(scene, *scene.attack(
            f'python3 -c "import os; [(os.mkdir(chr(100)), os.chdir(chr(100))) for i in range({count})]"'))
        scene.surrogate.kill()
        scene.surrogate.wait()
        begun = time.monotonic()
        scene.begin_surrogate()
        done, _ = scene.next_command(3)
        again = time.monotonic() - begun
        return f"{text}; behind a restart {'done' if done else 'NOT DONE'} {again:5.2f} s", good and done and again <= NEXT + NEXT
    return attack


def spy(scene):
    if not scene.is_apart():
        return "left out: programs do not run apart", True
    loop = "for i in $(seq 60); do for d in ${0%/*}/run-*; do echo evil > $d/evil; done; sleep 0.1; done"
    text, good = judged(scene, *scene.attack(f'setsid sh -c "{loop.replace("$", chr(92) + "$")}" $PWD < /dev/null > /dev/null 2>&1 & sleep 0.3'))
    done, _ = scene.next_command(3, "sleep 1; seq 3000 > c")
    return f"{text}; a third one beside it {'done' if done else 'SPOILT'}", good and done


def forger(scene):
    if not scene.is_apart():
        return "left out: programs do not run apart", True
    path = b"forged"
    entry = bytes([1]) + struct.pack(">IBH", 1, 2, len(path)) + path + struct.pack(">I", 7) + b"forged\n"
    entry += struct.pack(">IH", 1, len(path)) + path + struct.pack(">Q", 0)
    frame = bytes([3, 1, 36]) + struct.pack(">Q", 1) + entry
    frame = (struct.pack(">I", len(frame)) + frame).hex()
    text, good = judged(scene, *scene.attack(
        f'python3 -c "import socket; socket.create_connection((chr(49)+\\"27.0.0.1\\", {scene.port}), 5).sendall(bytes.fromhex(\\"{frame}\\"))"'))
    os.makedirs(f"{scene.folder}/36", exist_ok=True)
    scene.client(36, "put mine precious\nsync")
    names, _, _ = scene.client(5, "pull\nls")
    kept = "f mine" in names and "f forged" not in names
    return f"{text}; client 36 has {'its own' if kept else 'NOT ITS OWN'}", good and kept


def unreadable(scene):
    return judged(scene, *scene.attack(r'mkdir -p "$(printf b\\377)/e"; chmod 000 b*'))


def stubborn(scene):
    return judged(scene, *scene.attack('trap "" TERM HUP INT; (trap "" TERM HUP INT; sleep 600) & chmod 000 .'))


ATTACKS = [
    ("chain of 3,000 folders", chain(3_000)),
    ("chain of 15,000 folders", chain(15_000)),
    ("a spy that stays", spy),
    ("a forger", forger),
    ("a name of no text, without rights", unreadable),
    ("a process that ignores signals", stubborn),
]


def clear(folder):
    """Removes the folder: python's own call does not walk so deep a chain."""
    for _ in range(3):
        subprocess.run(["chmod", "-R", "u+rwX", folder], stderr=subprocess.DEVNULL, check=False)
        if subprocess.run(["rm", "-rf", folder], stderr=subprocess.DEVNULL, check=False).returncode == 0:
            return
        time.sleep(1)


def main(words):
    good = True
    for name, attack in [it for it in ATTACKS if not words or any(it[0].startswith(word) for word in words)]:
        folder = tempfile.mkdtemp()
        scene = Scene(folder)
        try:
            text, met = attack(scene)
        finally:
            scene.end()
            clear(folder)
        good = good and met
        print(f"{name:36} {text}{'' if met else ' (MISSED)'}", flush=True)
    print(re.sub(r"(?m)^surrogate: listens at .*\n", "", scene.told), end="")
    return 0 if good else 1


sys.exit(main(sys.argv[1:]))
