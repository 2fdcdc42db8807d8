"""Puts of a client's session, and the same puts as transactions of sqlite3: what each writes, and how long it takes. run.sh says how it
is run."""

import os
import shutil
import signal
import struct
import subprocess
import sys
import time

ROWS = [10, 1000, 16000]
SIZE = 100  # bytes of a file, with its line end
PATHS = 10  # that the puts go to in turn
LIMIT = 300  # seconds that a session may take


def path_of(i):
    return f"f{i:05d}"


def text_of(i):
    return f"text {i} ".ljust(SIZE - 1, "x")


def make_image(name, rows):
    """The image of client 1 with so many files and with no entry that waits."""
    with open(name, "wb") as it:
        it.write(b"OSCI\x02\x01" + struct.pack(">QI", rows, rows))
        for i in range(rows):
            path, text = path_of(i).encode(), text_of(i).encode() + b"\n"
            it.write(struct.pack(">H", len(path)) + path + struct.pack(">QBI", 1, 2, len(text)) + text)
        it.write(bytes(4))


def make_table(sqlite, name, rows):
    lines = ["PRAGMA journal_mode=WAL;", "CREATE TABLE files(path TEXT PRIMARY KEY, content TEXT);", "BEGIN;"]
    lines += [f"INSERT INTO files VALUES('{path_of(i)}', '{text_of(i)}');" for i in range(rows)]
    subprocess.run([sqlite, name], input="\n".join(lines + ["COMMIT;"]), text=True, check=True, stdout=subprocess.DEVNULL)


def too_long(_signal, _frame):
    raise TimeoutError(f"a session took more than {LIMIT} seconds")


def session(command, before, lines, is_good):
    """The seconds and the written bytes of the first line, and those of the others together."""
    signal.alarm(LIMIT)
    with subprocess.Popen(command, stdin=subprocess.PIPE, stdout=subprocess.PIPE, bufsize=0) as program:
        try:
            answers = os.fdopen(os.dup(program.stdout.fileno()), "rb")
            said = 0

            def ask(line):
                nonlocal said
                program.stdin.write(line.encode() + b"\n")
                answer = answers.readline()
                said += len(answer)
                if not is_good(answer):
                    raise ValueError(f"{command[0]} answered {answer} to {line[:40]}")

            def written():
                with open(f"/proc/{program.pid}/io") as counts:
                    return int(dict(line.split(": ") for line in counts)["wchar"]) - said

            for line in before:
                ask(line)
            start, bytes_before = time.monotonic(), written()
            ask(lines[0])
            middle, bytes_between = time.monotonic(), written()
            again = time.monotonic()
            for line in lines[1:]:
                ask(line)
            end, bytes_after = time.monotonic(), written()
            program.stdin.close()
            answers.read()
            if program.wait() != 0:
                raise ValueError(f"{command[0]} ended with {program.returncode}")
            return middle - start, bytes_between - bytes_before, end - again, bytes_after - bytes_between
        finally:
            program.kill()
            signal.alarm(0)


def least(sessions, count):
    """The least of each figure: milliseconds and bytes of the first line, and of one of the others."""
    first, first_bytes, others, others_bytes = (min(column) for column in zip(*sessions))
    return f"first {first * 1e3:8.2f} ms {first_bytes:9d} bytes, then {others * 1e3 / count:6.2f} ms {others_bytes // count:9d} bytes a put"


def main(client, sqlite, work, puts, runs):
    signal.signal(signal.SIGALRM, too_long)
    image, table = f"{work}/image", f"{work}/table"
    for rows in ROWS:
        ours, theirs = [], []
        make_image(f"{image}.made", rows)
        if sqlite:
            make_table(sqlite, f"{table}.made{rows}", rows)
        for _ in range(runs):
            shutil.copyfile(f"{image}.made", image)
            lines = [f"put {path_of(i % PATHS)} '{text_of(i)}'" for i in range(puts)]
            command = [client, "run", "1", image, "127.0.0.1:1", "-", f"{work}/programs"]
            ours.append(session(command, ["status"], lines, lambda answer: answer.startswith((b"logged ", b"acknowledged "))))
            if sqlite:
                shutil.copyfile(f"{table}.made{rows}", table)
                lines = [f"REPLACE INTO files VALUES('{path_of(i % PATHS)}', '{text_of(i)}'); SELECT 1;" for i in range(puts)]
                before = ["PRAGMA synchronous=FULL; SELECT 1;", "SELECT count(*) > 0 FROM files;"]
                theirs.append(session(["stdbuf", "-oL", sqlite, table], before, lines, lambda answer: answer == b"1\n"))
        print(f"{rows:6d} rows   haurpiko: {least(ours, puts - 1)}" + (f"   sqlite3: {least(theirs, puts - 1)}" if sqlite else ""))


if __name__ == "__main__":
    main(sys.argv[1], sys.argv[2], sys.argv[3], int(sys.argv[4]), int(sys.argv[5]))
