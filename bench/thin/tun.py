"""A thin link: it carries IP packets between two TUN devices, each in a network namespace of its own. It holds them to a rate and a delay,
loses some by chance, and drops what does not fit into its queue. Real TCP stands at both ends. Started by scenes.py, as root.

    python3 tun.py NEAR FAR RATE DELAY LOSS QUEUE      two namespaces; bytes a second; seconds each way; a share; bytes of a queue

Until a line `hold` comes on standard input the link is free. Each further line is answered by what it has carried since, as
`UP DOWN DROPPED OPENED`: bytes with all headers, packets lost or dropped, and connections that NEAR asked for.
"""
import fcntl
import heapq
import os
import random
import select
import struct
import subprocess
import sys
import time

TUNSETIFF, IFF_TUN, IFF_NO_PI = 0x400454CA, 0x0001, 0x1000
TCP, SYN, ACK = 6, 0x02, 0x10
ADDRESSES = ("10.9.0.1", "10.9.0.2")  # of NEAR and FAR
UP, DOWN = 0, 1


def device(namespace, address, name):
    """A handle of a new TUN device in the namespace."""
    handle = os.open("/dev/net/tun", os.O_RDWR | os.O_NONBLOCK)
    fcntl.ioctl(handle, TUNSETIFF, struct.pack("16sH", name.encode(), IFF_TUN | IFF_NO_PI))
    for words in (
        ("link", "set", name, "netns", namespace, "name", "thin"),
        ("-n", namespace, "link", "set", "lo", "up"),
        ("-n", namespace, "addr", "add", f"{address}/24", "dev", "thin"),
        ("-n", namespace, "link", "set", "thin", "mtu", "1500", "up"),
    ):
        subprocess.run(("ip", *words), check=True)
    return handle


def connection_of(packet):
    """The ports and the first number of a connection that the packet asks for; a repeat has the same."""
    head = (packet[0] & 15) * 4
    if packet[9] != TCP or len(packet) <= head + 13 or packet[head + 13] & (SYN | ACK) != SYN:
        return None
    return packet[head:head + 8]


class Link:
    """Two devices and what is on its way between them."""

    def __init__(self, handles, rate, delay, loss, queue):
        self.handles, self.rate, self.delay, self.loss, self.queue = handles, rate, delay, loss, queue
        self.is_held, self.on_its_way, self.count = False, [], 0
        self.free = [0.0, 0.0]  # when each way has room for the next packet
        self.chance = random.Random(7)
        self.forget()

    def forget(self):
        self.carried, self.dropped, self.opened = [0, 0], 0, set()

    def take(self, way, packet):
        """Puts a packet on its way, or drops it."""
        if packet[0] >> 4 != 4:
            return
        now = time.monotonic()
        self.carried[way] += len(packet)
        if way == UP and (connection := connection_of(packet)):
            self.opened.add(connection)
        if not self.is_held:
            self.write(way, packet)
            return
        leaves = max(self.free[way], now)
        if self.chance.random() < self.loss or (leaves - now) * self.rate > self.queue:
            self.dropped += 1
            return
        self.free[way] = leaves + len(packet) / self.rate
        self.count += 1
        heapq.heappush(self.on_its_way, (self.free[way] + self.delay, self.count, way, packet))

    def write(self, way, packet):
        try:
            os.write(self.handles[1 - way], packet)
        except OSError:
            self.dropped += 1

    def bring(self):
        """Hands over what has arrived. Answers the seconds until the next packet does."""
        now = time.monotonic()
        while self.on_its_way and self.on_its_way[0][0] <= now:
            _, _, way, packet = heapq.heappop(self.on_its_way)
            self.write(way, packet)
        return max(0.0, self.on_its_way[0][0] - now) if self.on_its_way else None

    def hear(self, line):
        if line == "hold":
            self.is_held = True
            self.forget()
            print("held", flush=True)
        else:
            print(*self.carried, self.dropped, len(self.opened), flush=True)


def main():
    near, far = sys.argv[1:3]
    rate, delay, loss, queue = map(float, sys.argv[3:])
    handles = [device(it, address, f"thin{os.getpid()}{side}") for it, address, side in zip((near, far), ADDRESSES, "nf")]
    link = Link(handles, rate, delay, loss, queue)
    print("up", flush=True)
    while True:
        ready, _, _ = select.select([sys.stdin, *handles], [], [], link.bring())
        for it in ready:
            if it is sys.stdin:
                line = sys.stdin.readline()
                if not line:
                    return
                link.hear(line.strip())
            else:
                try:
                    link.take(handles.index(it), os.read(it, 2048))
                except OSError:
                    pass


main()
