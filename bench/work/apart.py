"""The turns of apart.sh: FOLDER COUNT."""
import os
import statistics
import subprocess
import sys
import time

MOST = 40  # milliseconds that a command apart may cost more
LINE = b"run -- /bin/true\n"


class Client:
    """A client whose programs run apart, or not."""

    def __init__(self, folder, number, is_apart):
        words = [os.environ["CLIENT"], "run", str(number), f"{folder}/{number}.image", "127.0.0.1:1", "-", f"{folder}/work{number}"]
        environment = os.environ | {"HAURPIKO_APART": "1" if is_apart else "0"}
        self.program = subprocess.Popen(words, env=environment, stdin=subprocess.PIPE, stdout=subprocess.PIPE)

    def time(self):
        """The milliseconds of a command that does nothing."""
        begun = time.monotonic()
        self.program.stdin.write(LINE)
        self.program.stdin.flush()
        answer = self.program.stdout.readline().decode().strip()
        if answer != "nothing logged status 0":
            raise SystemExit(f"{LINE.decode().strip()}: {answer}")
        return (time.monotonic() - begun) * 1_000

    def end(self):
        self.program.stdin.close()
        self.program.wait()


def main(folder, count):
    clients = [Client(folder, number, number == 2) for number in (1, 2)]
    for client in clients:
        client.time()  # the first one waits for the start of the session
    times = [[client.time() for client in clients] for _ in range(int(count))]
    for client in clients:
        client.end()
    plain, apart = (statistics.median(each) for each in zip(*times))
    load = os.getloadavg()[0]
    print(f"medians of {count}: {plain:.1f} ms, apart {apart:.1f} ms, so {apart - plain:.1f} ms more (goal: {MOST}); the load was {load:.1f}")
    return 0 if apart - plain <= MOST else 1


sys.exit(main(*sys.argv[1:]))
