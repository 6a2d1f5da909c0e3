#!/usr/bin/env python3
"""Writes the example traces of sameimage: python3 tools/build_traces.py crates/sameimage/data"""
import sys


def command(byte):
    return b"CM" + bytes([byte])


def address(*bytes_):
    return b"".join(b"AD" + bytes([byte]) for byte in bytes_)


def row_cycles(row):
    return address(row & 0xFF, row >> 8 & 0xFF, row >> 16 & 0xFF)


def unlock(first_block, last_block):
    return command(0x23) + row_cycles(32 * first_block) + command(0x24) + row_cycles(32 * last_block)


def program(row, column, words):
    """Loads the words from a column of area A on, programs the page, waits for its end and reads the status."""
    load = b"".join(b"DI" + word.to_bytes(2, "little") for word in words)
    return (command(0x80) + address(column) + row_cycles(row) + load + command(0x10) + b"ST"
            + command(0x70) + b"DO" + command(0x00))


ROW = 32 * 1 + 3
front = [(7 * i + 3) % 256 for i in range(0, 300)]
back = [(13 * i + 5) % 256 for i in range(200, 500)]
# the third build has other words at columns 240 to 255, and one page more
other_back = [word & 0xF0 if 240 <= 200 + k < 256 else word for k, word in enumerate(back)]

builds = {
    "build-a": unlock(1, 2) + program(ROW, 0, front) + program(ROW, 200, back),
    "build-b": unlock(1, 2) + program(ROW, 200, back) + program(ROW, 0, front),
    "build-c": unlock(1, 2) + program(ROW, 200, other_back) + program(ROW, 0, front) + program(64, 16, [0x12, 0x34, 0x56]),
}

for name, trace in builds.items():
    with open(f"{sys.argv[1]}/{name}.trace", "wb") as out:
        out.write(trace)
