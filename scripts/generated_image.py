#!/usr/bin/env python3
"""Writes an executable with N functions, which call one another in a ring and each of which reads its own string.

usage: generated_image.py N FILE

Each function has eight instructions and stands at 00010000 + 32 i; its string has 16 bytes and stands at 00200000 + 16 i.
"""
import struct
import sys

CODE = 0x00010000
STRINGS = 0x00200000


def upper(register, value):
    return (value << 12) | (register << 7) | 0x37


def add_immediate(rd, rs1, value):
    return ((value & 0xFFF) << 20) | (rs1 << 15) | (rd << 7) | 0x13


def call(offset):
    bits = offset & 0x1FFFFF
    return (((bits >> 20) & 1) << 31) | (((bits >> 1) & 0x3FF) << 21) | (((bits >> 11) & 1) << 20) \
        | (((bits >> 12) & 0xFF) << 12) | (1 << 7) | 0x6F


def function(number, count):
    string = STRINGS + 16 * number
    high = (string + 2048) // 4096
    low = string - 4096 * high
    ahead = 32 * (((number + 1) % count) - number) - 16
    return [0xFF010113, 0x00112623, upper(10, high), add_immediate(10, 10, low), call(ahead),
            0x00C12083, 0x01010113, 0x00008067]


def image(count):
    code = b"".join(struct.pack("<8I", *function(i, count)) for i in range(count))
    strings = b"".join(b"string %08d\0" % i for i in range(count))
    header = b"\x7fELF\x01\x01\x01" + bytes(9) + struct.pack("<2H5I6H", 2, 243, 1, CODE, 52, 0, 0, 52, 32, 2, 0, 0, 0)
    first = struct.pack("<8I", 1, 116, CODE, CODE, len(code), len(code), 5, 4)
    second = struct.pack("<8I", 1, 116 + len(code), STRINGS, STRINGS, len(strings), len(strings), 4, 4)
    return header + first + second + code + strings


def main():
    if len(sys.argv) != 3 or not sys.argv[1].isdigit():
        sys.exit(__doc__)
    with open(sys.argv[2], "wb") as out:
        out.write(image(int(sys.argv[1])))


main()
