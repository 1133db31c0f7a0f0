#!/usr/bin/env python3
"""Writes `stdin`, a stored table of 5,648 bytes as L3 lays it out, and `stdout`, the table of 8,208 bytes that it has to become.

Both are worked out from the papers alone: 01, "The stored table", L3 for the dates and the latest clock, and L6, "converted as in L3": dates and clock are kept, and no
key has a name. The table holds a key and the key that replaced it, linked both ways. Tables of 4,624 bytes, from before L3, are tried in host/tests/widen.rs.
"""

import pathlib

PLACES = 64


def number(value, width):
    return value.to_bytes(width, "big")


# "serial (4, zero means free), state (1), unit (1), length in bits (2), replaced serial (4), replacement serial (4)"
def line(serial, state, unit, bits, replaced, replacement):
    return number(serial, 4) + number(state, 1) + number(unit, 1) + number(bits, 2) + number(replaced, 4) + number(replacement, 4)


# "total (8), count (8), usage mask (4), zeros (4), material (32)"; L3: "at its end an Activation Date and a Deactivation Date (8 bytes each, 0 means not set)"
def body(total, count, mask, material, activation, deactivation):
    front = number(total, 8) + number(count, 8) + number(mask, 4) + bytes(4) + material + bytes(32 - len(material))
    return front + number(activation, 8) + number(deactivation, 8)


# place: line and body; every other place is free, and a free place is zero
KEYS = {
    # "00000001": Active since 1,700,000,000 and until 1,800,000,000, 128 bits, 100 units of which 60 were granted; it was replaced by "00000002"
    0: (line(1, 2, 1, 128, 0, 2), body(100, 40, 0x4, bytes(range(1, 17)), 1_700_000_000, 1_800_000_000)),
    # "00000002": Pre-Active until 1,790,000,000, 128 bits, the same limit; it replaced "00000001"
    5: (line(2, 1, 1, 128, 1, 0), body(100, 100, 0x4, bytes(range(17, 33)), 1_790_000_000, 0)),
    # "00000003": Destroyed, 256 bits, no limit
    63: (line(3, 5, 0, 256, 0, 0), body(0, 0, 0xC, bytes(32), 0, 1_710_000_000)),
}


# "last serial issued (4), place count 64 (4)", latest clock (8), the lines, the bodies with what stands at the end of each
def table(behind):
    lead = number(3, 4) + number(PLACES, 4) + number(1_750_000_000, 8)
    lines = b"".join(KEYS[i][0] if i in KEYS else bytes(16) for i in range(PLACES))
    bodies = b"".join((KEYS[i][1] if i in KEYS else bytes(72)) + behind for i in range(PLACES))
    return lead + lines + bodies


if __name__ == "__main__":
    # L6: "a length byte (0 means no name), seven zeros and 32 name bytes"
    old, new = table(b""), table(bytes(40))
    assert (len(old), len(new)) == (5648, 8208)
    here = pathlib.Path(__file__).parent
    (here / "stdin").write_bytes(old)
    (here / "stdout").write_bytes(new)
