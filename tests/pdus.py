#!/usr/bin/env python3
"""Writes PDU lines made from chosen fields, as the oracle's `encode` takes them.

    tests/pdus.py [SEED] [COUNT]     the chosen parts, some 210,000 lines, then COUNT random lines (600000)

A reader never gives most of these: prefix lengths over the rule, Router Keys in version 0, absent intervals in version 1. The
last two chosen parts write the same PDUs in other forms, and have lines that both refuse. The same seed gives the same lines.
"""
import itertools
import random
import sys

LONGEST = 300  # bytes of a payload
KINDS = (0, 1, 2, 3, 4, 6, 7, 8, 9, 10)
VERSIONS = (0, 1)
BYTE = range(256)
EDGES16 = (0, 1, 2, 127, 128, 255, 256, 257, 32767, 32768, 65279, 65280, 65534, 65535)
EDGES32 = tuple(sorted({min(max(2**k + d, 0), 2**32 - 1) for k in range(33) for d in (-1, 0, 1)}))
INTERVALS = ("none", 0, 1, 600, 3600, 7200, 2**32 - 1)
# Both sides of each edge of UTF-8, and of each length that it gives.
POINTS = (0x00, 0x0A, 0x20, 0x41, 0x7F, 0x80, 0xE9, 0x7FF, 0x800, 0xFFF, 0x1000, 0xCFFF, 0xD000, 0xD7FF, 0xE000, 0xFEFF, 0xFFFD, 0xFFFE, 0xFFFF)
POINTS += (0x10000, 0x1F600, 0x3FFFF, 0x40000, 0xFFFFF, 0x100000, 0x10FFFF)
ILL = "80 bf c0 c1 c080 c27f c2 e08080 e09fbf eda080 edbfbf e282 f0808080 f08fbfbf f4908080 f5808080 f09f98 ff fe41 41c3".split()


def number16(rng):
    return rng.choice(EDGES16) if rng.random() < 0.2 else rng.getrandbits(16)


def number32(rng):
    return rng.choice(EDGES32) if rng.random() < 0.2 else rng.getrandbits(32)


def head(kind, version):
    return f"type={kind} version={version}"


def prefix(rng, kind, version, flags, length, most):
    address = rng.randbytes(4 if kind == 4 else 16).hex()
    return f"{head(kind, version)} flags={flags} length={length} max={most} address={address} asn={number32(rng)}"


def end_of_data(rng, version, refresh, retry, expire):
    fields = f"session={number16(rng)} serial={number32(rng)}"
    return f"{head(7, version)} {fields} refresh={refresh} retry={retry} expire={expire}"


def router_key(rng, version, flags, size, ski=20):
    return f"{head(9, version)} flags={flags} ski={rng.randbytes(ski).hex()} asn={number32(rng)} spki={rng.randbytes(size).hex()}"


def report(version, code, encap, text):
    return f"{head(10, version)} code={code} encap={encap.hex()} text={text.hex()}"


def text(rng, size):
    """Well-formed UTF-8 of that many bytes: code points of every length, filled up with letters."""
    whole = b""
    while len(whole) < size:
        point = rng.choice(POINTS) if rng.random() < 0.7 else rng.randrange(0xD800)
        more = chr(point).encode()
        whole += more if len(whole) + len(more) <= size else b"x"
    return whole


def flags_all(rng):
    for kind, version, flags in itertools.product((4, 6), VERSIONS, BYTE):
        yield prefix(rng, kind, version, flags, rng.randrange(33), rng.randrange(33))
    for version, flags in itertools.product(VERSIONS, BYTE):
        yield router_key(rng, version, flags, rng.randrange(4))


def lengths_all(rng):
    """Every prefix length with every maximum, in both families."""
    for kind, length, most in itertools.product((4, 6), BYTE, BYTE):
        yield prefix(rng, kind, rng.randrange(2), rng.randrange(256), length, most)


def sessions_all(rng):
    for session in range(65536):
        kind, version = rng.choice((0, 1, 3)), rng.randrange(2)
        serial = "" if kind == 3 else f" serial={number32(rng)}"
        yield f"{head(kind, version)} session={session}{serial}"


def numbers(rng):
    """The edges of each 32-bit field."""
    for n, version in itertools.product(EDGES32, VERSIONS):
        yield f"{head(0, version)} session={number16(rng)} serial={n}"
        yield f"{head(1, version)} session={number16(rng)} serial={n}"
        yield f"{head(4, version)} flags=1 length=24 max=32 address={n:08x} asn={n}"
        yield f"{head(6, version)} flags=1 length=48 max=64 address={n:08x}{number32(rng):08x}{n:08x}{n:08x} asn={n}"
        yield f"{head(7, version)} session={number16(rng)} serial={n} refresh={n} retry={n} expire={n}"
        yield f"{head(9, version)} flags=1 ski={n:040x} asn={n} spki={n:x}{n:x}"


def intervals(rng):
    for version, refresh, retry, expire in itertools.product(VERSIONS, INTERVALS, INTERVALS, INTERVALS):
        yield end_of_data(rng, version, refresh, retry, expire)


def payloads(rng):
    """Every size of each payload, in both versions; every error code."""
    for version, size in itertools.product(VERSIONS, range(LONGEST + 1)):
        yield router_key(rng, version, rng.randrange(256), size)
        yield report(version, size % 9, rng.randbytes(size), b"")
        yield report(version, size % 9, b"", text(rng, size))
        yield report(version, size % 9, rng.randbytes(size), text(rng, LONGEST - size))
    for version, code, a, b in itertools.product(VERSIONS, range(9), range(5), range(5)):
        yield report(version, code, rng.randbytes(a), text(rng, b))


def texts(rng):
    """Code points on both sides of each edge, alone and between letters, then some of every plane but the surrogates."""
    for version in VERSIONS:
        yield head(2, version)
        yield head(8, version)
        for point in itertools.chain(POINTS, range(0, 0xD800, 37), range(0xE000, 0x110000, 401)):
            yield report(version, point % 9, b"", chr(point).encode())
        for a, b in itertools.product(POINTS, POINTS):
            yield report(version, a % 9, b"\x00", ("A" + chr(a) + chr(b) + "B").encode())


def forms(rng):
    """The same fields in another order, twice, with words around them, other spaces, signs and leading zeros."""
    for kind in KINDS * 8:
        words = any_pdu(rng, kind).split()
        yield "ok consumed=8 " + " ".join(words)
        yield "  \t".join(rng.sample(words, len(words))) + " "
        yield " ".join([f"{rng.choice(words).split('=')[0]}=0", "flags", "=", "type"] + words + ["text2=", "x=version=9"])
        yield " ".join(word.replace("=", "=+0", 1) if word.split("=")[1].isdigit() else word for word in words)


def refused(rng):
    """What both refuse: key identifiers of another length, ill-formed text, numbers and digits that are none, fields left out."""
    for version, ski in itertools.product(VERSIONS, range(64)):
        if ski != 20:
            yield router_key(rng, version, 1, 3, ski)
    for version, word in itertools.product(VERSIONS, ILL):
        yield report(version, 1, b"", bytes.fromhex(word))
        yield report(version, 1, b"\x01", b"A" + bytes.fromhex(word) + b"B")
    for kind in KINDS:
        words = any_pdu(rng, kind).split()
        for at, word in enumerate(words):
            name = word.split("=")[0]
            for other in ("", "-1", "+", "x", "256", "65536", "4294967296", "0", "zz", "abc", "none"):
                yield " ".join(words[:at] + [f"{name}={other}"] + words[at + 1 :])
            yield " ".join(words[:at] + words[at + 1 :])
            yield " ".join(words[:at] + [name] + words[at + 1 :])
            yield " ".join(words[:at])
    yield "refused 1 0 8"
    yield "error not-hex"


def any_pdu(rng, kind):
    version = rng.randrange(2)
    if kind in (0, 1):
        return f"{head(kind, version)} session={number16(rng)} serial={number32(rng)}"
    if kind == 3:
        return f"{head(kind, version)} session={number16(rng)}"
    if kind in (4, 6):
        return prefix(rng, kind, version, rng.getrandbits(8), rng.getrandbits(8), rng.getrandbits(8))
    if kind == 7:
        return end_of_data(rng, version, *("none" if rng.random() < 0.3 else number32(rng) for _ in range(3)))
    if kind == 9:
        return router_key(rng, version, rng.getrandbits(8), rng.randrange(LONGEST + 1))
    if kind == 10:
        return report(version, rng.randrange(9), rng.randbytes(rng.randrange(LONGEST + 1)), text(rng, rng.randrange(LONGEST + 1)))
    return head(kind, version)


# The kinds with one field or none have few lines, and the two with payloads long ones.
WEIGHTS = {0: 12, 1: 12, 2: 1, 3: 6, 4: 20, 6: 20, 7: 16, 8: 1, 9: 7, 10: 5}
PARTS = (flags_all, lengths_all, sessions_all, numbers, intervals, payloads, texts, forms, refused)


def any_pdus(rng, count):
    for kind in rng.choices(tuple(WEIGHTS), tuple(WEIGHTS.values()), k=count):
        yield any_pdu(rng, kind)


def main():
    seed = int(sys.argv[1]) if len(sys.argv) > 1 else 1
    count = int(sys.argv[2]) if len(sys.argv) > 2 else 600000
    rng = random.Random(seed)
    for part in PARTS:
        sys.stdout.writelines(line + "\n" for line in part(rng))
    sys.stdout.writelines(line + "\n" for line in any_pdus(rng, count))


if __name__ == "__main__":
    main()
