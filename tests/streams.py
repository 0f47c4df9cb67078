#!/usr/bin/env python3
"""Writes streams in hex, a line each, as the oracle's `stream` and the driver's take them: each stream twice, whole and cut.

    tests/streams.py [SEED] [COUNT]     COUNT streams (100000), 2 * COUNT lines

A stream is some PDUs behind each other, most of them whole, some damaged: a byte turned, lengths 0 to 7 and around and over 131,086 in
headers, unknown versions and types, Error Reports with copies, nests and texts of every kind, prefix lengths over the rule; half of the
streams are cut off at any byte, and a few hold PDUs of 65,535 to 131,087 bytes. In the second line of a stream a space ends a piece: at
random places, at places around each header and each PDU's end, or all at one distance; two spaces are an empty piece. The oracle passes
over spaces. The same seed gives the same lines.
"""
import random
import sys

from pdus import ILL, KINDS, number16, number32, text

LONGEST = 131086
LENGTHS = tuple(range(8)) * 3 + tuple(range(8, 41)) + (65535, 65536, 131085, 131086, 131087, 131088, 0x00FFFFFF, 0x7FFFFFFF, 0x80000000, 0xFFFFFFFF)
SIZES = {0: (12, 12), 1: (12, 12), 2: (8, 8), 3: (8, 8), 4: (20, 20), 6: (32, 32), 7: (12, 24), 8: (8, 8)}
# Of 100,000 streams so many are long; each has one PDU of such a length.
LONG = 80
LONG_SIZES = (65535, 65536, 65537, 100000, 131070, 131084, 131085, 131086, 131086, 131087)
MOST = 147000  # bytes of a stream


def n(value, size):
    return value.to_bytes(size, "big")


def pdu(version, kind, field, body, length=None):
    return bytes([version, kind]) + n(field, 2) + n(8 + len(body) if length is None else length, 4) + body


def report(rng, version, code, encap, words, behind=b"", encap_len=None, text_len=None):
    body = n(len(encap) if encap_len is None else encap_len, 4) + encap
    body += n(len(words) if text_len is None else text_len, 4) + words + behind
    return pdu(version, 10, code, body)


def some_text(rng):
    kind = rng.random()
    if kind < 0.5:
        return text(rng, rng.randrange(40))
    if kind < 0.7:
        return b"out of order"[: rng.randrange(13)]
    if kind < 0.85:
        return text(rng, rng.randrange(12)) + bytes.fromhex(rng.choice(ILL)) + text(rng, rng.randrange(12))
    return rng.randbytes(rng.randrange(8))


def any_report(rng, version, depth=0):
    copy = rng.random()
    if copy < 0.3:
        encap = b""
    elif copy < 0.7 and depth < 4:
        encap = good(rng, depth + 1)
        encap = encap[: rng.randrange(len(encap) + 1)] if rng.random() < 0.3 else encap
    else:
        encap = rng.randbytes(rng.randrange(40))
    code = rng.randrange(9) if rng.random() < 0.9 else number16(rng)
    behind = rng.randbytes(rng.randrange(1, 6)) if rng.random() < 0.1 else b""
    lengths = {}
    if rng.random() < 0.06:
        lengths["encap_len"] = rng.choice((len(encap) + 1, max(len(encap), 1) - 1, 0xFFFFFFF0, 0xFFFFFFFF, number32(rng)))
    if rng.random() < 0.06:
        lengths["text_len"] = rng.choice((1, 0xFFFFFFF0, 0xFFFFFFFF, number32(rng)))
    return report(rng, version, code, encap, some_text(rng) if rng.random() < 0.5 else text(rng, rng.randrange(30)), behind, **lengths)


def good(rng, depth=0):
    """A PDU of any kind; those that hold a text may be refused for it."""
    version = rng.randrange(2)
    kind = rng.choices(KINDS, (4, 4, 3, 4, 10, 8, 5, 3, 4, 6))[0]
    if kind == 10:
        return any_report(rng, version, depth)
    if kind == 9:
        return pdu(1 if rng.random() < 0.95 else 0, 9, number16(rng), rng.randbytes(26 + rng.randrange(60)))
    body = bytearray(rng.randbytes(SIZES[kind][version] - 8))
    if kind in (4, 6):
        limit = 32 if kind == 4 else 128
        body[2] = rng.randrange(limit + 1)
        body[1] = rng.randrange(body[2] + 1)
        if rng.random() < 0.03:
            body[rng.choice((1, 2))] = rng.choice((limit, limit + 1, 255, rng.randrange(256)))
    return pdu(version, kind, number16(rng), bytes(body))


def damaged(rng):
    whole = bytearray(good(rng))
    kind = rng.random()
    if kind < 0.35:
        whole[4:8] = n(rng.choice(LENGTHS), 4)
    elif kind < 0.45:
        whole[4:8] = n(max(8, len(whole) + rng.randrange(-9, 10)), 4)
    elif kind < 0.55:
        whole[0] = rng.choice((2, 3, 9, 127, 128, 255))
    elif kind < 0.65:
        whole[1] = rng.choice((5, 11, 12, 127, 128, 255))
    elif kind < 0.75:
        whole[0], whole[1], whole[4:8] = rng.randrange(256), rng.randrange(256), n(rng.choice(LENGTHS), 4)
    elif kind < 0.9:
        whole[rng.randrange(len(whole))] ^= 1 << rng.randrange(8)
    else:
        return rng.randbytes(rng.randrange(1, 40))
    return bytes(whole)


def long_pdu(rng):
    size = rng.choice(LONG_SIZES)
    kind = rng.random()
    if kind < 0.2:
        return pdu(1, 9, 0, rng.randbytes(size - 8))
    room = size - 16
    copy = rng.choice((0, room, room // 2, rng.randrange(room + 1)))
    words = text(rng, min(room - copy, 4000))
    words += b"x" * (room - copy - len(words))
    if words and rng.random() < 0.3:
        words = words[:-1] + b"\xc3"
    return report(rng, rng.randrange(2), rng.randrange(9), rng.randbytes(copy), words)


def stream(rng, is_long):
    """The bytes, and where each PDU in them begins."""
    parts = [good(rng) for _ in range(rng.choice((0, 1, 1, 2, 3, 5, 8)))]
    if rng.random() < 0.5:
        parts.insert(rng.randrange(len(parts) + 1), damaged(rng))
    if is_long:
        parts.insert(rng.randrange(len(parts) + 1), long_pdu(rng))
    starts, at = [], 0
    for part in parts:
        starts.append(at)
        at += len(part)
    whole = b"".join(parts)[:MOST]
    if rng.random() < 0.5:
        whole = whole[: rng.randrange(len(whole) + 1)]
    return whole, starts


def cuts(rng, whole, starts):
    """Where pieces end: each place from 0 to the length, some of them twice."""
    size = len(whole)
    kind = rng.random()
    if kind < 0.35:
        places = [rng.randrange(size + 1) for _ in range(rng.randrange(1, 9))]
    elif kind < 0.7:
        near = [s + d for s in starts for d in (-1, 0, 1, 4, 7, 8, 9, 12, 16)]
        places = rng.sample(near, rng.randrange(1, len(near) + 1)) if near else [0]
    elif kind < 0.85 and size <= 4000:
        places = range(1, size + 1)
    else:
        step = rng.randrange(1, 65) if size <= 4000 else rng.choice((4096, 5000, 1448, 65535))
        places = range(step, size + 1, step)
    places = sorted(place for place in places if 0 <= place <= size)
    return places or [rng.randrange(size + 1)]


def spaced(whole, places):
    pieces, at = [], 0
    for place in places:
        pieces.append(whole[at:place].hex())
        at = place
    return " ".join(pieces + [whole[at:].hex()])


def main():
    seed = int(sys.argv[1]) if len(sys.argv) > 1 else 1
    count = int(sys.argv[2]) if len(sys.argv) > 2 else 100000
    rng = random.Random(seed)
    every = max(1, 100000 // LONG)
    for i in range(count):
        whole, starts = stream(rng, i % every == every - 1)
        print(whole.hex())
        print(spaced(whole, cuts(rng, whole, starts)))


if __name__ == "__main__":
    main()
