#!/usr/bin/env python3
"""table.py CLIENT FILE..: plays the certificates of scenes (`crates/t_calls/data/table.scenes`), their fronts, and those with another byte,
over a client's `check ROOT PATH`, one process each, and compares line and status. Scenes of trees are left out. Ends with 1 where something
differs."""
import subprocess
import sys
from concurrent.futures import ThreadPoolExecutor


def wanted_line(answer):
    """The line and the status that an answer of a scene stands for."""
    words = answer.split(" ")
    if words[0] == "OtherPath":
        return b"refused OtherPath " + bytes.fromhex(words[1]) + b"\n", 9
    if words[0] in ("BadCert", "WrongRoot"):
        return b"refused " + answer.encode() + b"\n", 9
    return answer.encode() + b"\n", 0


def checks_of(path):
    """The root, the path, the certificate and the answer of each line that looks at one."""
    root = certificate = b""
    asked, block = "", None
    for line in open(path, encoding="utf-8"):
        first, _, rest = line.rstrip("\n").partition(" ")
        if first == "scene":
            root = certificate = b""
            asked = ""
        elif first == ":":
            if block == "against":
                root = bytes.fromhex(rest)
            elif block == "certificate":
                certificate += bytes.fromhex(rest)
        elif first == "asked":
            asked = rest
        elif first == "certificate":
            certificate = b""
        elif root and first == "says":
            yield root, asked, certificate, rest
        elif root and first == "cut":
            size, _, answer = rest.partition(" ")
            yield root, asked, certificate[: int(size)], answer
        elif root and first == "byte":
            place, number, answer = rest.split(" ", 2)
            other = bytearray(certificate)
            other[int(place)] = int(number)
            yield root, asked, bytes(other), answer
        if first != ":":
            block = first


def differs(check):
    root, asked, certificate, answer = check
    ran = subprocess.run([client, "check", root.hex(), asked], input=certificate, capture_output=True, check=False)
    if (ran.stdout, ran.returncode) == wanted_line(answer):
        return None
    return f"{root.hex()} {asked} {certificate.hex()}: wanted {answer}, found {ran.returncode} {ran.stdout!r}"


client, checks = sys.argv[1], [check for file in sys.argv[2:] for check in checks_of(file)]
with ThreadPoolExecutor(4) as pool:
    found = [it for it in pool.map(differs, checks) if it]
for it in found[:20]:
    print(it)
print(f"{len(checks)} certificates, {len(found)} differences")
sys.exit(1 if found or not checks else 0)
