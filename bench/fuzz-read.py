#!/usr/bin/env python3
"""Random and mutated words through `read`, compared line by line with a reader of its own.

Run at the root of the repository, after `(cd crates/read && rt run < /dev/null)`, which builds it:

    python3 bench/fuzz-read.py [HOW_MANY] [SEED]

It takes whole words, records and settings from crates/read/stdin, changes, cuts, joins and lengthens them,
adds random ones, and gives them to crates/read/out/read in batches. A crash, a batch that takes longer than a minute,
or a line that is not what the reader below expects ends it with status 1.
"""
import random
import subprocess
import sys

READ = "crates/read/out/read"
BATCH = 20000


class Fault(Exception):
    pass


def need(test, number):
    if not test:
        raise Fault(number)


def ciphers(b, at, many, twice):
    need(at < len(b), 1)
    count = b[at]
    need(count != 0, 1)
    need(count <= 16, many)
    seen = []
    for i in range(count):
        need(at + 1 + i < len(b), 1)
        need(b[at + 1 + i] not in seen, twice)
        seen.append(b[at + 1 + i])
    return seen, at + 1 + count


def hello(b, at, indent):
    need(at < len(b) and b[at] == 1, 1)
    need(at + 5 <= len(b), 1)
    out = [f"{indent}caller: {b[at+1]*256+b[at+2]}", f"{indent}called side: {b[at+3]*256+b[at+4]}"]
    offered, at = ciphers(b, at + 5, 1, 1)
    out += [f"{indent}cipher offered: {c}" for c in offered]
    need(at + 64 <= len(b), 1)
    out.append(f"{indent}caller's nonce: {b[at:at+32].hex()}")
    out.append(f"{indent}caller's ephemeral public key: {b[at+32:at+64].hex()}")
    return out, at + 64


def public(key):
    return bytes(24) + (int.from_bytes(key[24:], "big") * 5 % 2**64).to_bytes(8, "big")


def parts(b):
    need(len(b) > 0, 1)
    kind = b[0]
    if kind == 1:
        out, at = hello(b, 0, "  ")
        need(at == len(b), 1)
        return ["hello"] + out
    if kind in (2, 3):
        need(len(b) >= 3, 1)
        need(b[1] * 256 + b[2] == len(b) - 3, 1)
    if kind == 2:
        out, at = hello(b, 3, "    ")
        need(len(b) == at + 177, 1)
        return ["reply", "  hello"] + out + [
            f"  choice: {b[at]}",
            f"  called side's nonce: {b[at+1:at+33].hex()}",
            f"  seal: its public key: {b[at+33:at+65].hex()}",
            f"  seal: encrypted secret and tag: {b[at+65:at+113].hex()}",
            f"  called side's signature: {b[at+113:].hex()}",
        ]
    if kind == 3:
        need(331 <= len(b) - 3 <= 346, 1)
        return ["end", f"  reply and caller's signature, encrypted, and tag: {b[3:].hex()}"]
    if kind == 4:
        need(len(b) >= 15, 1)
        length = b[13] * 256 + b[14]
        need(1 <= length <= 1024 and len(b) == 31 + length, 1)
        return ["record", f"  session: {b[1:5].hex()}", f"  number: {int.from_bytes(b[5:13], 'big')}", f"  content and tag: {b[15:].hex()}"]
    if kind == 8:
        need(len(b) >= 3, 1)
        own = b[1] * 256 + b[2]
        need(own < 4096, 11)
        wished, at = ciphers(b, 3, 11, 11)
        rest = len(b) - at
        need(rest % 32 == 0 and rest >= 64, 1)
        sides = rest // 32 - 1
        need(sides <= 4096, 11)
        need(own < sides, 11)
        halves = [b[at + 32 * i : at + 32 * i + 32] for i in range(sides)]
        need(halves[own] == public(b[-32:]), 11)
        return ["settings", f"  this side's number: {own}"] + [f"  preference: {c}" for c in wished] + [f"  identity public key: {h.hex()}" for h in halves]
    raise Fault(1)


def mutated(rng, pool):
    b = bytearray(rng.choice(pool))
    for _ in range(rng.randrange(0, 4)):
        what = rng.randrange(8)
        if not b or what == 0:
            b += rng.randbytes(rng.randrange(1, 5))
        elif what == 1:
            del b[rng.randrange(len(b)) :]
        elif what == 2:
            b[rng.randrange(len(b))] ^= 1 << rng.randrange(8)
        elif what == 3:
            b[rng.randrange(min(len(b), 16))] = rng.randrange(256)
        elif what == 4:
            at = rng.randrange(len(b))
            del b[at : at + rng.randrange(1, 40)]
        elif what == 5:
            at = rng.randrange(len(b))
            b[at:at] = rng.randbytes(rng.randrange(1, 40))
        elif what == 6:
            other = rng.choice(pool)
            b = b[: rng.randrange(len(b) + 1)] + other[rng.randrange(len(other)) :]
        elif what == 7 and len(b) >= 3 and b[0] in (2, 3):
            b[1:3] = max(0, len(b) - 3 + rng.choice((0, 0, 0, 1, -1))).to_bytes(2, "big")
    return bytes(b)


def main():
    many = int(sys.argv[1]) if len(sys.argv) > 1 else 1000000
    rng = random.Random(int(sys.argv[2]) if len(sys.argv) > 2 else 1)
    pool = []
    for line in open("crates/read/stdin"):
        line = line.strip()
        try:
            b = bytes.fromhex(line) if line and line[0] != "#" and " " not in line else b""
            parts(b)
            pool.append(b)
        except (Fault, ValueError):
            pass
    told = {}
    done = 0
    while done < many:
        words = []
        for _ in range(min(BATCH, many - done)):
            words.append(rng.randbytes(rng.randrange(1, 120)) if rng.randrange(10) == 0 else mutated(rng, pool))
        text = "".join((w.hex() or "#") + "\n" for w in words).encode()
        got = subprocess.run([READ], input=text, stdout=subprocess.PIPE, stderr=subprocess.DEVNULL, timeout=60)
        if got.returncode != 0:
            sys.exit(f"status {got.returncode}")
        # a fault's cause in words is left out of the comparison
        lines = [l.split(": fault ")[0] + ": fault " + l.split(": fault ")[1].split(":")[0] if ": fault " in l else l for l in got.stdout.decode().split("\n")]
        expected = []
        for i, w in enumerate(words):
            if not w:
                continue
            try:
                shown = parts(w)
                told[shown[0]] = told.get(shown[0], 0) + 1
            except Fault as f:
                shown = [f"fault {f.args[0]}"]
                told[shown[0]] = told.get(shown[0], 0) + 1
            expected += [f"line {i+1}: {shown[0]}"] + shown[1:]
        expected.append("")
        if lines != expected:
            for a, b in zip(lines, expected):
                if a != b:
                    sys.exit(f"read says {a!r}, expected {b!r}")
            sys.exit("read says more or less than expected")
        done += len(words)
    print(f"{done} words, none told otherwise:", ", ".join(f"{k} {v}" for k, v in sorted(told.items())))


main()
