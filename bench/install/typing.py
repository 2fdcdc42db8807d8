"""Types lines with tabs to a bash that has the completion, at a terminal of its own, and looks at the words that each became."""
import os
import pty
import select
import sys
import time

BEGIN = b"at the ready\r\n"
# Lines as they are typed, and the words that the program is given.
TYPED = [
    ("haurpiko-client ru\t\n", ["run"]),
    ("haurpiko-server --v\t\n", ["--version"]),
    ("haurpiko-surrogate --h\t\n", ["--help"]),
    ("haurpiko-server run 127.0.0.1:7001 serv\t6\t\n", ["run", "127.0.0.1:7001", "server.image", "65536"]),
    ("haurpiko-client run 1 cli\t[::1]:7001 \two\t\n", ["run", "1", "client.image", "[::1]:7001", "-", "work/"]),
    ("haurpiko-surrogate run :7002 :7001 wo\t 6\t\n", ["run", ":7002", ":7001", "work/", "65536"]),
    ("haurpiko-client \t\n", ["--help", "--version", "run"]),
]


def read_until(terminal, end, seconds=20):
    """Reads from the terminal until the bytes have come."""
    came = b""
    until = time.monotonic() + seconds
    while end not in came:
        ready, _, _ = select.select([terminal], [], [], max(0, until - time.monotonic()))
        if not ready:
            raise SystemExit(f"no {end!r} came within {seconds} s, but {came!r}")
        came += os.read(terminal, 4096)
    return came


def main(completion, folder):
    os.chdir(folder)
    for name in ("server.image", "client.image"):
        open(name, "w").close()
    os.makedirs("work", exist_ok=True)
    child, terminal = pty.fork()
    if child == 0:
        os.environ.update({"INPUTRC": "/dev/null", "TERM": "dumb", "PS1": "", "HISTFILE": ""})
        os.execvp("bash", ["bash", "--norc", "--noprofile", "-i"])
    setup = f". {completion}; stty -echo; bind 'set show-all-if-ambiguous on'; bind 'set bell-style none'; PS1=; "
    setup += "for name in client server surrogate; do eval \"haurpiko-$name() { printf '<%s>' \\\"\\$@\\\"; echo; }\"; done; "
    os.write(terminal, (setup + "echo 'at the' 'ready'\n").encode())
    read_until(terminal, BEGIN)
    faults = 0
    for typed, words in TYPED:
        os.write(terminal, (typed + "echo 'at the' 'ready'\n").encode())
        came = read_until(terminal, BEGIN).decode()
        is_list = typed.endswith(" \t\n") and len(words) > 1 and "run" not in typed
        found = all(word in came.split() for word in words) if is_list else "".join(f"<{word}>" for word in words) in came
        if not found:
            faults += 1
            print(f"typed {typed!r}: wanted {words}, but {came!r} came", file=sys.stderr)
    os.write(terminal, b"exit\n")
    os.waitpid(child, 0)
    return 1 if faults else 0


sys.exit(main(*sys.argv[1:]))
