"""A link that counts: ports of this machine, each in front of another one, which can be held to so many bytes a second each way.

    python3 proxy.py FILE PORT:BEHIND ..    stands at each PORT, and keeps in FILE what went up and down: 'UP DOWN'
"""
import os
import socket
import sys
import threading
import time

PIECE = 120  # bytes at once on a link that is held
SEGMENT = 1_448  # of a link that is held, as of any but this machine's own


class Link:
    """Counts what goes up to the peers and what comes down, over all ports of the link together."""

    def __init__(self, pace=None, file=None):
        self.pace, self.file, self.lock, self.listeners = pace, file, threading.Lock(), []
        self.free = {"up": 0.0, "down": 0.0}  # when each way has room for the next piece
        self.forget()

    def forget(self):
        """Counts from here on."""
        self.up = self.down = 0
        self.talks = {}
        self.keep()

    def keep(self):
        if self.file:
            with open(f"{self.file}.new", "w") as new:
                new.write(f"{self.up} {self.down}\n")
            os.replace(f"{self.file}.new", self.file)

    def front(self, behind, name, port=0):
        """The address in front of a port. Connections are counted under the name."""
        listener = socket.socket()
        listener.setsockopt(socket.SOL_SOCKET, socket.SO_REUSEADDR, 1)
        if self.pace:
            # what waits on the near side of the link is to be little, as it is on a real one
            listener.setsockopt(socket.SOL_SOCKET, socket.SO_RCVBUF, 4_096)
            listener.setsockopt(socket.IPPROTO_TCP, socket.TCP_MAXSEG, SEGMENT)
        listener.bind(("127.0.0.1", port))
        listener.listen(64)
        self.listeners.append(listener)
        threading.Thread(target=self.take_all, args=(listener, behind, name), daemon=True).start()
        return f"127.0.0.1:{listener.getsockname()[1]}"

    def end(self):
        """Takes no more connections."""
        for listener in self.listeners:
            listener.shutdown(socket.SHUT_RDWR)
            listener.close()

    def take_all(self, listener, behind, name):
        while True:
            try:
                near, _ = listener.accept()
            except OSError:
                return
            with self.lock:
                self.talks[name] = self.talks.get(name, 0) + 1
            threading.Thread(target=self.join, args=(near, behind), daemon=True).start()

    def join(self, near, behind):
        """Joins a connection with the port behind, once something listens there."""
        for _ in range(1_200):
            try:
                far = socket.create_connection(("127.0.0.1", behind))
                break
            except OSError:
                time.sleep(0.1)
        else:
            near.close()
            return
        for way, source, sink in (("up", near, far), ("down", far, near)):
            threading.Thread(target=self.carry, args=(way, source, sink), daemon=True).start()

    def carry(self, way, source, sink):
        try:
            while piece := source.recv(PIECE if self.pace else 65_536):
                self.count(way, len(piece))
                sink.sendall(piece)
        except OSError:
            pass
        try:
            sink.shutdown(socket.SHUT_WR)
        except OSError:
            pass

    def count(self, way, size):
        """Counts the bytes, and waits until the link has had time to carry them."""
        with self.lock:
            setattr(self, way, getattr(self, way) + size)
            self.keep()
            if not self.pace:
                return
            now = time.monotonic()
            self.free[way] = max(self.free[way], now) + size / self.pace
            wait = self.free[way] - now
        time.sleep(wait)


def main():
    link = Link(file=sys.argv[1])
    for front in sys.argv[2:]:
        port, behind = (int(it) for it in front.split(":"))
        link.front(behind, behind, port)
    threading.Event().wait()


if __name__ == "__main__":
    main()
