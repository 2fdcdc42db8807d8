#!/usr/bin/env python3
"""What a server takes for one store of very many changes: 1,024 and 4,096 puts of empty files in one folder, and 4,096 moves of these.

    bench/server/large.py SERVER        the proved server, say, of rt run in crates/server

Prints a line for each: the seconds from frame to frame, and those of the server's processor. Ends with 1 where one is not accepted.
"""
import os
import socket
import struct
import subprocess
import sys
import tempfile
import time

ACCEPTED = 0x11


def path(text):
    return struct.pack(">H", len(text)) + text.encode()


def store(number, effects, base):
    """The frame of client 1's entry: effects as bytes, and paths with their versions before."""
    body = b"\x01" + struct.pack(">I", len(effects)) + b"".join(effects)
    body += struct.pack(">I", len(base)) + b"".join(path(text) + struct.pack(">Q", version) for text, version in base)
    payload = bytes([3, 1, 1]) + struct.pack(">Q", number) + body
    return struct.pack(">I", len(payload)) + payload


def puts(number, names):
    return store(number, [b"\x02" + path(name) + struct.pack(">I", 0) for name in names], [(name, 0) for name in names])


def moves(number, pairs):
    base = [place for old, new in pairs for place in ((old, 1), (new, 0))]
    return store(number, [b"\x04" + path(old) + path(new) for old, new in pairs], base)


def processor(pid):
    with open(f"/proc/{pid}/stat", encoding="utf-8") as it:
        fields = it.read().rsplit(")", 1)[1].split()
    return (int(fields[11]) + int(fields[12])) / os.sysconf("SC_CLK_TCK")


def asked(port, frame):
    with socket.create_connection(("127.0.0.1", port)) as peer:
        peer.sendall(frame)
        answer = b""
        while piece := peer.recv(65536):
            answer += piece
    return answer


def main():
    program = os.path.abspath(sys.argv[1])
    with socket.socket() as free:
        free.bind(("127.0.0.1", 0))
        port = free.getsockname()[1]
    few, many = [f"f{i:06d}" for i in range(1024)], [f"a{i:06d}" for i in range(4096)]
    work = [("1,024 puts", puts(1, few)), ("4,096 puts", puts(2, many)), ("4,096 moves", moves(3, [(name, "m" + name) for name in many]))]
    with tempfile.TemporaryDirectory() as folder:
        server = subprocess.Popen([program, "run", f"127.0.0.1:{port}", "image", "4"], cwd=folder, stderr=subprocess.DEVNULL)
        time.sleep(1)
        try:
            for what, frame in work:
                before, begun = processor(server.pid), time.monotonic()
                answer = asked(port, frame)
                took = time.monotonic() - begun
                if len(answer) < 6 or answer[5] != ACCEPTED:
                    print(f"{what}: not accepted: {answer[:20].hex()}")
                    return 1
                print(f"{what} in one store: {took:.3f} s, {processor(server.pid) - before:.2f} s of its processor", flush=True)
        finally:
            server.kill()
            server.wait()
    return 0


if __name__ == "__main__":
    sys.exit(main())
