#!/usr/bin/env python3
"""The listing by the reference model (receiver_model.py), which shares nothing with the program.

    listing.py < INPUT > LISTING      what document 01's program prints of these bytes
    listing.py --inputs DIR           writes the chosen inputs, a file each, named after what they show
"""
import os
import random
import sys

from receiver_model import rtr_table


def u16(n):
    return n.to_bytes(2, "big")


def u32(n):
    return n.to_bytes(4, "big")


def header(kind, field, length, version=1):
    return bytes([version, kind]) + u16(field) + u32(length)


def cache_response(session, version=1):
    return header(3, session, 8, version)


def ipv4(address, length, most, asn, flags=1):
    return header(4, 0, 20) + bytes([flags, length, most, 0]) + u32(address) + u32(asn)


def ipv6(words, length, most, asn, flags=1):
    return header(6, 0, 32) + bytes([flags, length, most, 0]) + b"".join(map(u32, words)) + u32(asn)


def end_of_data(session, serial, refresh, retry, expire):
    return header(7, session, 24) + u32(serial) + u32(refresh) + u32(retry) + u32(expire)


def loaded(records, session=4660, serial=7, intervals=(3600, 600, 7200)):
    return cache_response(session) + b"".join(records) + end_of_data(session, serial, *intervals)


def inputs():
    example = loaded([ipv4(0xC0000200, 24, 24, 64496)])
    yield "example", example
    yield "example-without-its-last-byte", example[:-1]
    yield "no-input", b""
    yield "one-byte", example[:1]
    yield "empty-table", loaded([])
    yield "smallest-numbers", loaded([ipv4(0, 0, 0, 0)], 0, 0, (0, 0, 0))
    yield "largest-numbers", loaded([ipv6([0xFFFFFFFF] * 4, 128, 128, 0xFFFFFFFF)], 0xFFFF, 0xFFFFFFFF, (0xFFFFFFFF,) * 3)
    powers = [n for k in range(1, 10) for n in (10 ** k - 1, 10 ** k)]
    yield "powers-of-ten", loaded([ipv4(n, 32, 32, n) for n in powers])
    yield "serials-of-ten", loaded([ipv4(1, 9, 10, 99)], 10000, 1000000000, (999999999, 9, 10))
    shuffled = [ipv6([0x20010DB8, 0, n, 0x0A0B0C0D], 48, 64, n) for n in range(9)] + [ipv4(n, 8, 32, n) for n in range(9)]
    random.Random(1).shuffle(shuffled)
    yield "both-families", loaded(shuffled)
    yield "a-withdrawal", loaded([ipv4(1, 8, 8, 1), ipv4(2, 8, 8, 2), ipv4(1, 8, 8, 1, 0)])
    yield "1024-records", loaded([ipv4(n, 24, 24, n) for n in range(1024)])
    yield "1025-records", loaded([ipv4(n, 24, 24, n) for n in range(1025)])
    yield "10-records", loaded([ipv4(n, 24, 24, n) for n in range(10)])
    yield "999-records", loaded([ipv4(n, 24, 24, n) for n in range(999)])
    key = header(9, 0, 8192) + bytes(8184)
    yield "a-pdu-that-fills-the-hold", cache_response(4660) + key + loaded([ipv4(0xC0000200, 24, 24, 64496)])[8:]
    yield "half-a-pdu-behind-a-table", example + cache_response(4660)[:5]
    # stops: before there is a table, and with the table as it stands
    yield "stop-in-the-first-update", cache_response(1) + ipv4(1, 8, 8, 1) + header(3, 1, 8, 9)
    yield "stop-by-version-behind-a-table", example + header(3, 4660, 8, 9) + loaded([])
    yield "stop-by-a-second-update", example + loaded([ipv4(9, 8, 8, 9)])
    yield "stop-by-the-other-version", cache_response(1, 0)
    yield "stop-by-a-report", example + header(10, 2, 16) + bytes(8)
    yield "stop-by-length", example + header(3, 1, 7)
    yield "stop-by-the-hold", example + header(9, 0, 8193)
    yield "stop-by-an-announcement-twice", loaded([ipv4(1, 8, 8, 1), ipv4(1, 8, 8, 1)])
    yield "stop-by-a-withdrawal-of-nothing", loaded([ipv4(1, 8, 8, 1, 0)])
    yield "stop-by-lengths", loaded([ipv4(1, 9, 8, 1)])
    yield "stop-and-a-megabyte", example + header(3, 4660, 8, 9) + bytes(1 << 20)


def main(words):
    if words[:1] == ["--inputs"] and len(words) == 2:
        for name, data in inputs():
            with open(os.path.join(words[1], name), "wb") as file:
                file.write(data)
        return 0
    if words:
        print(__doc__, file=sys.stderr)
        return 2
    sys.stdout.write(rtr_table(sys.stdin.buffer.read()))
    return 0


if __name__ == "__main__":
    sys.exit(main(sys.argv[1:]))
