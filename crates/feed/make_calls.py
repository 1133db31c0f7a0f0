#!/usr/bin/env python3
"""Writes `stdin`, calls in the form that the program `feed` reads, and `stdout`, what each of them has to leave.

The first is the bench program's Create on a blank table of 64 places, at a clock of eight different bytes: its response is the bench program's but for the Time Stamp. The second has
buffers that are too small, and is refused with 1; the third is the first again with clock -1, and is refused with 10. The fourth is the first on a blank table of 256 places, and the
fifth the same in one byte more, which is refused with 3. The sixth is the first with a second buffer that is a byte short, and is refused with 11. What is refused leaves table, output
and second buffer as they were, and so does every call the second buffer, but for the seventh: the first under Undo, with a second item that fails. It leaves the table before its first
item, which has the clock alone, in both. The last says a table that is longer than what `feed` holds, and ends it: nothing is written for it, and nothing of it is read but its head.
"""

import pathlib

HERE = pathlib.Path(__file__).parent
ROOM = 6360
TABLE_MOST = 33792
CLOCK = bytes(range(1, 9))
STRIP = bytes(range(256)) * 2

REQUEST = (HERE / "../bench/stdin").read_bytes()
# the request with Batch Error Continuation Option 3 (Undo), Batch Count 2, and an Activate behind the Create that finds no key
UNDO = bytes.fromhex("42000E05 00000004 00000003 00000000")
COUNT = bytes.fromhex("42000D02 00000004 00000002 00000000")
ACTIVATE = bytes.fromhex("42000F01 00000028 42005C05 00000004 00000012 00000000 42007901 00000010 42009407 00000008") + b"00000000"
UNDONE_REQUEST = bytes.fromhex("42007801 000000E8 42007701 00000048") + REQUEST[16:56] + UNDO + COUNT + REQUEST[72:] + ACTIVATE
# the Time Stamp's value is bytes 64 to 71 of a response
BENCH = bytes.fromhex((HERE / "../bench/stdout").read_text())
RESPONSE = BENCH[:64] + CLOCK + BENCH[72:]
# two answers: Create with Result Status 3 (Operation Undone) and nothing more, Activate with Object Not Found
UNDONE_ITEM = bytes.fromhex("42000F01 00000020 42005C05 00000004 00000001 00000000 42007F05 00000004 00000003 00000000")
FAILED_ITEM = bytes.fromhex(
    "42000F01 00000030 42005C05 00000004 00000012 00000000 42007F05 00000004 00000001 00000000 42007E05 00000004 00000037 00000000"
)
UNDONE_RESPONSE = bytes.fromhex("42007B01 000000B0") + BENCH[8:64] + CLOCK + COUNT + UNDONE_ITEM + FAILED_ITEM


def size_of(places):
    """A lead of 16 bytes, and for each place a line of 16 and a body of 112."""
    return 16 + (16 + 112) * places


def blank(places):
    """All zero but the place count."""
    return (bytes(4) + places.to_bytes(4, "big")).ljust(size_of(places), b"\0")


def with_key(places):
    """A blank table after the Create: last serial 1, the place count, the latest clock; serial 1, Pre-Active, no unit, 128 bits, no links; mask 4 and the first 16 bytes of the strip."""
    front = bytes.fromhex("00000001") + places.to_bytes(4, "big") + CLOCK + bytes.fromhex("00000001 01 00 0080 00000000 00000000")
    body = bytes(16) + bytes.fromhex("00000004 00000000") + STRIP[:16]
    return (front.ljust(16 + 16 * places, b"\0") + body).ljust(size_of(places), b"\0")


def with_clock(places):
    """A blank table after a request that changed nothing else: no serial is issued."""
    return (bytes(4) + places.to_bytes(4, "big") + CLOCK).ljust(size_of(places), b"\0")


def head(clock, *lengths):
    """The lengths of request, table, strip and output, the clock, and the length of the second buffer."""
    *first, last = [length.to_bytes(4, "big") for length in lengths]
    return b"".join(first) + clock + last


def call(request, table, strip, clock, out, undo):
    parts = [request, table, strip, out, undo]
    return head(clock, *[len(part) for part in parts]) + b"".join(parts)


def left(number, length, table, out, undo):
    """The number, the length of the response, table, output and second buffer."""
    return number.to_bytes(4, "big") + length.to_bytes(8, "big") + table + out + undo


if __name__ == "__main__":
    assert size_of(64) == 8208 and size_of(256) == 32784
    assert len(UNDONE_REQUEST) == 240 and len(UNDONE_RESPONSE) == 184
    before = b"\xa5" * ROOM
    after = RESPONSE + before[len(RESPONSE) :]
    undone = UNDONE_RESPONSE + before[len(UNDONE_RESPONSE) :]
    small, large = blank(64), blank(256)
    longer = large + b"\0"
    second, wide = b"\xee" * size_of(64), b"\xee" * size_of(256)
    cases = [
        (call(REQUEST, small, STRIP, CLOCK, before, second), left(0, len(RESPONSE), with_key(64), after, second)),
        (call(b"", b"\x7f", b"", bytes(8), b"\x5a" * 3, b"\x11" * 2), left(1, 0, b"\x7f", b"\x5a" * 3, b"\x11" * 2)),
        (call(REQUEST, small, STRIP, b"\xff" * 8, before, second), left(10, 0, small, before, second)),
        (call(REQUEST, large, STRIP, CLOCK, before, wide), left(0, len(RESPONSE), with_key(256), after, wide)),
        (call(REQUEST, longer, STRIP, CLOCK, before, wide), left(3, 0, longer, before, wide)),
        (call(REQUEST, small, STRIP, CLOCK, before, second[1:]), left(11, 0, small, before, second[1:])),
        (call(UNDONE_REQUEST, small, STRIP, CLOCK, before, second), left(0, len(UNDONE_RESPONSE), with_clock(64), undone, with_clock(64))),
        (head(CLOCK, len(REQUEST), TABLE_MOST + 1, len(STRIP), ROOM, len(second)), b""),
    ]
    (HERE / "stdin").write_bytes(b"".join(asked for asked, _ in cases))
    (HERE / "stdout").write_bytes(b"".join(answer for _, answer in cases))
