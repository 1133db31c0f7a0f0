#!/usr/bin/env python3
"""Writes the bench cards: `stdin`, the script that the program `cards` runs, and `stdout`, what has to come of it.

Both are worked out from the papers alone: TTLV, tags and numbers from KMIP 2.1, rules from the plan ("01") and from the change requests that
have landed ("L3" and so on). No engine is asked and none is imitated: each card is written down as what is asked together with the answer that the rules give it. Where the papers print bytes, they stand
here as printed and the builders below are checked against them.
"""

import pathlib

# ---- TTLV: tag 3 bytes, type 1, length 4, value, zero padding to a multiple of 8 that the length does not count


def ttlv(tag, kind, value):
    return tag.to_bytes(3, "big") + bytes([kind]) + len(value).to_bytes(4, "big") + value + bytes(-len(value) % 8)


def structure(tag, *items):
    return ttlv(tag, 0x01, b"".join(items))


def integer(tag, number):
    return ttlv(tag, 0x02, number.to_bytes(4, "big", signed=True))


def long_integer(tag, number):
    return ttlv(tag, 0x03, number.to_bytes(8, "big", signed=True))


def enumeration(tag, number):
    return ttlv(tag, 0x05, number.to_bytes(4, "big"))


def boolean(tag, number):
    return ttlv(tag, 0x06, number.to_bytes(8, "big"))


def text(tag, letters):
    """Letters in UTF-8, or bytes as they are, which need not be text."""
    return ttlv(tag, 0x07, letters if isinstance(letters, bytes) else letters.encode("utf-8"))


def byte_string(tag, value):
    return ttlv(tag, 0x08, value)


def date_time(tag, number):
    return ttlv(tag, 0x09, number.to_bytes(8, "big", signed=True))


def date_time_extended(tag, number):
    return ttlv(tag, 0x0B, number.to_bytes(8, "big", signed=True))


def interval(tag, number):
    return ttlv(tag, 0x0A, number.to_bytes(4, "big"))


# ---- tags (KMIP 2.1, section 11.56)

ACTIVATION_DATE = 0x420001
BATCH_COUNT = 0x42000D
BATCH_ERROR_CONTINUATION_OPTION = 0x42000E
BATCH_ITEM = 0x42000F
CRYPTOGRAPHIC_ALGORITHM = 0x420028
CRYPTOGRAPHIC_LENGTH = 0x42002A
CRYPTOGRAPHIC_USAGE_MASK = 0x42002C
DEACTIVATION_DATE = 0x42002F
KEY_BLOCK = 0x420040
KEY_FORMAT_TYPE = 0x420042
KEY_MATERIAL = 0x420043
KEY_VALUE = 0x420045
KEY_WRAP_TYPE = 0x4200F8
LINK = 0x42004A
LINK_TYPE = 0x42004B
LINKED_OBJECT_IDENTIFIER = 0x42004C
MAXIMUM_ITEMS = 0x42004F
NAME = 0x420053
NAME_TYPE = 0x420054
NAME_VALUE = 0x420055
OBJECT_TYPE = 0x420057
OFFSET = 0x420058
OPERATION = 0x42005C
PROTOCOL_VERSION = 0x420069
PROTOCOL_VERSION_MAJOR = 0x42006A
PROTOCOL_VERSION_MINOR = 0x42006B
REQUEST_HEADER = 0x420077
REQUEST_MESSAGE = 0x420078
REQUEST_PAYLOAD = 0x420079
RESPONSE_HEADER = 0x42007A
RESPONSE_MESSAGE = 0x42007B
RESPONSE_PAYLOAD = 0x42007C
RESULT_REASON = 0x42007E
RESULT_STATUS = 0x42007F
REVOCATION_MESSAGE = 0x420080
REVOCATION_REASON = 0x420081
REVOCATION_REASON_CODE = 0x420082
STATE = 0x42008D
STORAGE_STATUS_MASK = 0x42008E
SYMMETRIC_KEY = 0x42008F
TIME_STAMP = 0x420092
UNIQUE_BATCH_ITEM_ID = 0x420093
UNIQUE_IDENTIFIER = 0x420094
USAGE_LIMITS = 0x420095
USAGE_LIMITS_COUNT = 0x420096
USAGE_LIMITS_TOTAL = 0x420097
USAGE_LIMITS_UNIT = 0x420098
ATTRIBUTES = 0x420125
OTHER = 0x420020  # a tag that no payload names

# ---- operations, options, reasons

CREATE = 0x01
REKEY = 0x04
LOCATE = 0x08
GET = 0x0A
GET_ATTRIBUTES = 0x0B
ALLOCATE = 0x11
ACTIVATE = 0x12
REVOKE = 0x13
DESTROY = 0x14

CONTINUE = 1
STOP = 2
UNDO = 3

NOT_SUPPORTED = 0x05
INVALID_FIELD = 0x07
PERMISSION_DENIED = 0x0C
USAGE_LIMIT_EXCEEDED = 0x1A
NON_UNIQUE_NAME = 0x35
OBJECT_DESTROYED = 0x36
OBJECT_NOT_FOUND = 0x37
SERVER_LIMIT_EXCEEDED = 0x3A
WRONG_STATE = 0x43

# ---- requests


def header(version, option, count):
    major, minor = version
    fields = [structure(PROTOCOL_VERSION, integer(PROTOCOL_VERSION_MAJOR, major), integer(PROTOCOL_VERSION_MINOR, minor))]
    if option is not None:
        fields.append(enumeration(BATCH_ERROR_CONTINUATION_OPTION, option))
    fields.append(integer(BATCH_COUNT, count))
    return structure(REQUEST_HEADER, *fields)


def request(*items, option=None, version=(2, 1), count=None):
    return structure(REQUEST_MESSAGE, header(version, option, len(items) if count is None else count), *items)


def item_of(operation, id, *rest):
    """A batch item; the same front in requests and responses."""
    named = [] if id is None else [byte_string(UNIQUE_BATCH_ITEM_ID, id)]
    return structure(BATCH_ITEM, enumeration(OPERATION, operation), *named, *rest)


def ask(operation, *payload, id=None):
    return item_of(operation, id, structure(REQUEST_PAYLOAD, *payload))


def identifier(name):
    return text(UNIQUE_IDENTIFIER, name)


def target(name):
    return [] if name is None else [identifier(name)]


def limit(total, unit):
    return structure(USAGE_LIMITS, long_integer(USAGE_LIMITS_TOTAL, total), enumeration(USAGE_LIMITS_UNIT, unit))


def starts(date):
    return date_time(ACTIVATION_DATE, date)


def ends(date):
    return date_time(DEACTIVATION_DATE, date)


def called(letters, kind=1):
    """A Name; type 1 is uninterpreted text."""
    return structure(NAME, text(NAME_VALUE, letters), enumeration(NAME_TYPE, kind))


def wanted(*more, algorithm=3, bits=128, mask=4):
    """The Attributes of a Create."""
    return structure(
        ATTRIBUTES,
        enumeration(CRYPTOGRAPHIC_ALGORITHM, algorithm),
        integer(CRYPTOGRAPHIC_LENGTH, bits),
        integer(CRYPTOGRAPHIC_USAGE_MASK, mask),
        *more,
    )


def symmetric_key():
    return enumeration(OBJECT_TYPE, 2)


def create(*more, id=None, **attributes):
    return ask(CREATE, symmetric_key(), wanted(*more, **attributes), id=id)


def rekey(name=None, *more, id=None):
    return ask(REKEY, *target(name), *more, id=id)


def offset(seconds):
    return interval(OFFSET, seconds)


def allocate(name, count, id=None):
    return ask(ALLOCATE, *target(name), long_integer(USAGE_LIMITS_COUNT, count), id=id)


def activate(name=None, *more, id=None):
    return ask(ACTIVATE, *target(name), *more, id=id)


def reason_code(code):
    return structure(REVOCATION_REASON, enumeration(REVOCATION_REASON_CODE, code))


def revoke(name, code, id=None):
    return ask(REVOKE, *target(name), reason_code(code), id=id)


def destroy(name=None, *more, id=None):
    return ask(DESTROY, *target(name), *more, id=id)


def locate(letters, id=None):
    return ask(LOCATE, structure(ATTRIBUTES, called(letters)), id=id)


def get(name=None, *more, id=None):
    return ask(GET, *target(name), *more, id=id)


def attributes(name=None, *more, id=None):
    return ask(GET_ATTRIBUTES, *target(name), *more, id=id)


# ---- responses


def response(*answers, clock=1):
    version = structure(PROTOCOL_VERSION, integer(PROTOCOL_VERSION_MAJOR, 2), integer(PROTOCOL_VERSION_MINOR, 1))
    front = structure(RESPONSE_HEADER, version, date_time(TIME_STAMP, clock), integer(BATCH_COUNT, len(answers)))
    return structure(RESPONSE_MESSAGE, front, *answers)


def done(operation, *payload, id=None):
    return item_of(operation, id, enumeration(RESULT_STATUS, 0), structure(RESPONSE_PAYLOAD, *payload))


def failed(operation, reason, id=None):
    return item_of(operation, id, enumeration(RESULT_STATUS, 1), enumeration(RESULT_REASON, reason))


def undone(operation, id=None):
    """An item that had succeeded in a batch of which a later one failed."""
    return item_of(operation, id, enumeration(RESULT_STATUS, 3))


def created(name, id=None):
    return done(CREATE, symmetric_key(), identifier(name), id=id)


def named(operation, name, id=None):
    """Success that answers an identifier alone."""
    return done(operation, identifier(name), id=id)


def found(name, id=None):
    """Success of Locate: the key that has the name."""
    return named(LOCATE, name, id=id)


def found_none(id=None):
    """Success of Locate where no key has it: an empty payload."""
    return done(LOCATE, id=id)


def handed(name, material, id=None):
    """Success of Get: the key in the format Raw; its length is that of its material."""
    block = structure(
        KEY_BLOCK,
        enumeration(KEY_FORMAT_TYPE, 1),
        structure(KEY_VALUE, byte_string(KEY_MATERIAL, material)),
        enumeration(CRYPTOGRAPHIC_ALGORITHM, 3),
        integer(CRYPTOGRAPHIC_LENGTH, 8 * len(material)),
    )
    return done(GET, symmetric_key(), identifier(name), structure(SYMMETRIC_KEY, block), id=id)


def link(kind, name):
    return structure(LINK, enumeration(LINK_TYPE, kind), text(LINKED_OBJECT_IDENTIFIER, name))


def shown(name, state, bits=128, mask=4, limit=None, replaced=None, replacement=None, activation=0, deactivation=0, letters=None, id=None):
    """Success of Get Attributes; limit is total, count and unit, a date of 0 is not set, and the letters are those of its Name."""
    fields = [
        enumeration(CRYPTOGRAPHIC_ALGORITHM, 3),
        integer(CRYPTOGRAPHIC_LENGTH, bits),
        integer(CRYPTOGRAPHIC_USAGE_MASK, mask),
        enumeration(STATE, state),
    ]
    if activation != 0:
        fields.append(starts(activation))
    if deactivation != 0:
        fields.append(ends(deactivation))
    if limit is not None:
        total, count, unit = limit
        amounts = [long_integer(USAGE_LIMITS_TOTAL, total), long_integer(USAGE_LIMITS_COUNT, count)]
        fields.append(structure(USAGE_LIMITS, *amounts, enumeration(USAGE_LIMITS_UNIT, unit)))
    if replaced is not None:
        fields.append(link(0x107, replaced))
    if replacement is not None:
        fields.append(link(0x106, replacement))
    if letters is not None:
        fields.append(called(letters))
    return done(GET_ATTRIBUTES, identifier(name), structure(ATTRIBUTES, *fields), id=id)


# ---- the stored table: a lead of 16 bytes, and for each of 64 or 256 places a line of 16 and a body of 112

SMALL = 64
LARGE = 256
BODY_SIZE = 112
MATERIAL_IN = 24
ACTIVATION_IN = 56
DEACTIVATION_IN = 64
NAME_IN = 72
PLACE_COUNT = 4
LATEST_CLOCK = 8


def line_at(place):
    return 16 + 16 * place


def body_at(place, places=SMALL):
    return 16 + 16 * places + BODY_SIZE * place


def size_of(places):
    return body_at(places, places)


def lead(last, latest=1, places=SMALL):
    """The latest clock is 1 after a first request that was accepted, and 0 before."""
    return last.to_bytes(4, "big") + places.to_bytes(4, "big") + latest.to_bytes(8, "big")


def line(serial, state, unit=0, bits=128, replaced=0, replacement=0):
    numbers = [(serial, 4), (state, 1), (unit, 1), (bits, 2), (replaced, 4), (replacement, 4)]
    return b"".join(number.to_bytes(size, "big") for number, size in numbers)


def body(total=0, count=0, mask=4, material=b"", activation=0, deactivation=0, letters=""):
    numbers = [(total, 8), (count, 8), (mask, 4), (0, 4)]
    front = b"".join(number.to_bytes(size, "big") for number, size in numbers)
    dates = activation.to_bytes(8, "big") + deactivation.to_bytes(8, "big")
    return front + material.ljust(32, b"\0") + dates + name_field(letters)


def name_field(letters):
    """A length byte (0 means no name), seven zeros and 32 name bytes, zero past the length."""
    octets = letters if isinstance(letters, bytes) else letters.encode("utf-8")
    return bytes([len(octets)]) + bytes(7) + octets.ljust(32, b"\0")


def numbers(*values):
    """Numbers of eight bytes, as bodies and the latest clock have them; those from 2^63 on are negative dates."""
    return b"".join(value.to_bytes(8, "big") for value in values)


def fresh(item, size):
    """The bytes of the strip that a new key takes from the item at this position in its batch: bytes 0 to 255 twice, 32 for each item."""
    return bytes((32 * item + k) % 256 for k in range(size))


# ---- printed bytes


def unhex(printed):
    return bytes.fromhex(printed)


# 01, "Bench cards": the whole response to an Activate of "00000001"; L3 moves it to clock 1, which changes the last byte of its Time Stamp
PRINTED_ACTIVATED = unhex(
    "42007B01 00000090 42007A01 00000048 42006901 00000020 42006A02 00000004 00000002 00000000 42006B02 00000004 00000001 00000000"
    "42009209 00000008 00000000 00000001 42000D02 00000004 00000001 00000000 42000F01 00000038 42005C05 00000004 00000012 00000000"
    "42007F05 00000004 00000000 00000000 42007C01 00000010 42009407 00000008 30303030 30303031"
)
# worked out beside the papers: a Create of 128 bits with mask 4, its answer on a blank table, and the two answers to a bad Create and an
# Activate without identifier under Continue
PRINTED_CREATE = unhex(
    "42007801 000000A8 42007701 00000038 42006901 00000020 42006A02 00000004 00000002 00000000 42006B02 00000004 00000001 00000000"
    "42000D02 00000004 00000001 00000000 42000F01 00000060 42005C05 00000004 00000001 00000000 42007901 00000048 42005705 00000004"
    "00000002 00000000 42012501 00000030 42002805 00000004 00000003 00000000 42002A02 00000004 00000080 00000000 42002C02 00000004"
    "00000004 00000000"
)
PRINTED_CREATED = unhex(
    "42007B01 000000A0 42007A01 00000048 42006901 00000020 42006A02 00000004 00000002 00000000 42006B02 00000004 00000001 00000000"
    "42009209 00000008 00000000 00000001 42000D02 00000004 00000001 00000000 42000F01 00000048 42005C05 00000004 00000001 00000000"
    "42007F05 00000004 00000000 00000000 42007C01 00000020 42005705 00000004 00000002 00000000 42009407 00000008 30303030 30303031"
)
PRINTED_BAD_CREATE = unhex(
    "42007B01 000000C0 42007A01 00000048 42006901 00000020 42006A02 00000004 00000002 00000000 42006B02 00000004 00000001 00000000"
    "42009209 00000008 00000000 00000001 42000D02 00000004 00000002 00000000 42000F01 00000030 42005C05 00000004 00000001 00000000"
    "42007F05 00000004 00000001 00000000 42007E05 00000004 00000007 00000000 42000F01 00000030 42005C05 00000004 00000012 00000000"
    "42007F05 00000004 00000001 00000000 42007E05 00000004 00000037 00000000"
)
# a key of 128 bits, material 00 to 0F, as Get answers it: the Response Payload
PRINTED_KEY = unhex(
    "42007C01 00000080 42005705 00000004 00000002 00000000 42009407 00000008 30303030 30303031 42008F01 00000058 42004001 00000050"
    "42004205 00000004 00000001 00000000 42004501 00000018 42004308 00000010 00010203 04050607 08090A0B 0C0D0E0F"
    "42002805 00000004 00000003 00000000 42002A02 00000004 00000080 00000000"
)
PRINTED_NAME = unhex("42005301 00000020 42005507 00000004 70756D70 00000000 42005405 00000004 00000001 00000000")
# an undone Activate without ID: the whole item
PRINTED_UNDONE = unhex("42000F01 00000020 42005C05 00000004 00000012 00000000 42007F05 00000004 00000003 00000000")
PRINTED_OFFSET = unhex("4200580A 00000004 000D2F00 00000000")


def check_builders():
    assert response(named(ACTIVATE, "00000001")) == PRINTED_ACTIVATED and len(PRINTED_ACTIVATED) == 152
    assert request(create()) == PRINTED_CREATE and len(PRINTED_CREATE) == 176
    assert response(created("00000001")) == PRINTED_CREATED and len(PRINTED_CREATED) == 168
    assert response(failed(CREATE, INVALID_FIELD), failed(ACTIVATE, OBJECT_NOT_FOUND)) == PRINTED_BAD_CREATE
    assert called("pump") == PRINTED_NAME
    assert offset(864000) == PRINTED_OFFSET
    assert undone(ACTIVATE) == PRINTED_UNDONE and len(PRINTED_UNDONE) == 40 and len(undone(ACTIVATE, id=bytes(16))) == 64
    # sizes of answers with an ID of 16 bytes
    id = bytes(16)
    full = shown("00000002", 1, limit=(5, 5, 1), replaced="00000001", replacement="00000003", id=id)
    dated = shown("00000002", 1, limit=(5, 5, 1), replaced="00000001", replacement="00000003", activation=8, deactivation=9, id=id)
    assert len(failed(CREATE, INVALID_FIELD, id=id)) == 80
    assert len(named(ACTIVATE, "00000001", id=id)) == 88
    assert len(created("00000001", id=id)) == 104
    assert len(full) == 296 and len(dated) == 328
    assert len(found(ONE, id=id)) == 88 and len(found_none(id=id)) == 72 and len(response(found_none())) == 136
    longest = dict(limit=(5, 5, 1), replaced="00000001", replacement="00000003", activation=8, deactivation=9, letters=32 * "x", id=id)
    assert len(shown("00000002", 1, **longest)) == 392 and len(response(*[shown("00000002", 1, **longest)] * 16)) == 6360
    assert len(request(create(limit(1, 1), id=id))) == 72 + 168 and len(request(create(limit(1, 1), starts(1), ends(1), id=id))) == 72 + 200
    everything = create(limit(1, 1), starts(1), ends(1), called(32 * "x"), id=id)
    assert len(request(*[everything] * 15, option=CONTINUE)) == 88 + 15 * 264 == 4048 and len(request(*[everything] * 16, option=CONTINUE)) == 4312
    assert handed("00000001", bytes(range(16)))[-len(PRINTED_KEY) :] == PRINTED_KEY
    assert [len(handed("00000001", bytes(size), id=id)) for size in (16, 24, 32)] == [200, 208, 216]
    assert line_at(1) - line_at(0) == 16 and body_at(0) == 1040 and body_at(0, LARGE) == 4112
    assert size_of(SMALL) == 8208 and size_of(LARGE) == 32784
    assert len(lead(0)) == len(line(1, 1)) == 16 and len(body()) == BODY_SIZE


# ---- the script and what comes of it


SCRIPT_ROOM = 1048576  # a script has to stay below


def grouped(octets):
    """Hex in groups of eight digits; more than 128 bytes in one piece, which saves room."""
    digits = octets.hex().upper()
    group = 8 if len(octets) <= 128 else len(digits)
    return " ".join(digits[at : at + group] for at in range(0, len(digits), group))


class Script:
    def __init__(self):
        self.lines = []
        self.expected = []
        self.names = set()
        self.places = SMALL

    def say(self, line):
        self.lines.append(line)

    def about(self, *words):
        self.say("")
        for line in words:
            self.say("# " + line)

    def blank(self, places=SMALL):
        self.places = places
        self.say("blank" if places == SMALL else f"blank {places}")

    def body_at(self, place):
        """Where the body of a place of the table at hand stands."""
        return body_at(place, self.places)

    def put(self, at, octets):
        assert at + len(octets) <= size_of(self.places)
        self.say(f"put {at} {grouped(octets)}")

    def name(self, name):
        assert ": " not in name and name.isascii() and name not in self.names, name
        self.names.add(name)

    def expect(self, name, octets):
        self.expected.append(f"{name}: {octets.hex().upper()}")

    def table(self, name, at, octets):
        """These bytes have to stand in the table."""
        self.name(name)
        self.say(f"table {name}: {at} {len(octets)}")
        self.expect(name, octets)

    def output(self, name, at, octets):
        """These bytes have to stand in the output."""
        self.name(name)
        self.say(f"output {name}: {at} {len(octets)}")
        self.expect(name, octets)

    def second(self, name, at, octets):
        """These bytes have to stand in the second buffer."""
        self.name(name)
        self.say(f"second {name}: {at} {len(octets)}")
        self.expect(name, octets)

    def refused(self, name, octets, number):
        self.name(name)
        self.say(f"request {name}: {grouped(octets)}")
        self.expected.append(f"{name}: refusal {number}")

    def answered(self, name, octets, answer):
        self.name(name)
        self.say(f"request {name}: {grouped(octets)}")
        self.expect(name, answer)

    def card(self, name, *pairs, option=None, clock=1):
        """A batch: items asked, each with its answer, or with none where nothing more is answered; and the clock that counts."""
        answers = [answer for _, answer in pairs if answer is not None]
        asked = request(*[item for item, _ in pairs], option=option)
        self.answered(name, asked, response(*answers, clock=clock))

    def fails(self, name, item, operation, reason, clock=1):
        """A batch of one item, which fails."""
        self.card(name, (item, failed(operation, reason)), clock=clock)

    def key(self, place, line, body):
        self.put(line_at(place), line)
        self.put(self.body_at(place), body)

    def bad(self, line):
        """A line that is none of a script."""
        self.say(line)
        self.expected.append("bad line: " + line)


ONE = "00000001"
TWO = "00000002"
THREE = "00000003"


# ---- the cards that 01 lists, in its order


def nested(depth):
    """Structures inside each other, the innermost at this depth and empty."""
    return structure(OTHER, nested(depth - 1)) if depth > 1 else structure(OTHER)


def cards_of_depth(s):
    s.about("01: depth 8 is read, depth 9 is refused. A request that is read and is no Request Message is refusal 6; a payload stands at depth 3.")
    s.blank()
    s.refused("01 depth 8, structures alone", nested(8), 6)
    s.refused("01 depth 9, structures alone", nested(9), 5)
    s.fails("01 depth 8 in a payload", activate(None, nested(5)), ACTIVATE, INVALID_FIELD)
    s.refused("01 depth 9 in a payload", request(activate(None, nested(6))), 5)
    s.fails("01 depth 8 in the payload of Ping", ask(0x3B, nested(5)), 0x3B, NOT_SUPPORTED)
    s.refused("01 depth 9 in the payload of Ping", request(ask(0x3B, nested(6))), 5)


def active_key_of_100(s, name):
    s.blank()
    s.card(f"{name}, Create", (create(limit(100, 2)), created(ONE)))
    s.card(f"{name}, Activate", (activate(ONE), named(ACTIVATE, ONE)))


def cards_of_grants(s):
    s.about("01: an Active key, total 100, is granted 60 and 40, then 1.")
    active_key_of_100(s, "01 total 100")
    s.card("01 total 100, grant 60", (allocate(ONE, 60), named(ALLOCATE, ONE)))
    s.table("01 count after 60", body_at(0), body(100, 40, 4, fresh(0, 16), activation=1))
    s.card("01 total 100, grant 40", (allocate(ONE, 40), named(ALLOCATE, ONE)))
    s.table("01 count after 60 and 40", body_at(0), body(100, 0, 4, fresh(0, 16), activation=1))
    s.fails("01 total 100, grant 1", allocate(ONE, 1), ALLOCATE, USAGE_LIMIT_EXCEEDED)
    s.table("01 count after 60, 40 and 1", body_at(0), body(100, 0, 4, fresh(0, 16), activation=1))
    s.about("The same in one batch.")
    s.blank()
    s.card(
        "01 total 100 in one batch",
        (create(limit(100, 2)), created(ONE)),
        (activate(), named(ACTIVATE, ONE)),
        (allocate(None, 60), named(ALLOCATE, ONE)),
        (allocate(None, 40), named(ALLOCATE, ONE)),
        (allocate(None, 1), failed(ALLOCATE, USAGE_LIMIT_EXCEEDED)),
    )
    s.about("01: 101 first gives the same reason, and the count stays 100.")
    active_key_of_100(s, "01 101 first")
    s.fails("01 101 first, grant 101", allocate(ONE, 101), ALLOCATE, USAGE_LIMIT_EXCEEDED)
    s.table("01 count after 101", body_at(0), body(100, 100, 4, fresh(0, 16), activation=1))


def cards_of_the_end(s):
    s.about("01: Destroy on Active fails; Revoke code 5, then Destroy: state 5. Then Revoke code 2: state 6.")
    active_key_of_100(s, "01 end")
    s.fails("01 Destroy on Active", destroy(ONE), DESTROY, WRONG_STATE)
    s.table("01 line after Destroy on Active", line_at(0), line(1, 2, 2))
    s.card("01 Revoke code 5", (revoke(ONE, 5), named(REVOKE, ONE)))
    s.table("01 line after Revoke code 5", line_at(0), line(1, 3, 2))
    s.card("01 Destroy after Revoke", (destroy(ONE), named(DESTROY, ONE)))
    s.table("01 line after Destroy, state 5", line_at(0), line(1, 5, 2))
    s.table("01 body after Destroy, no key byte", body_at(0), body(100, 100, 4, activation=1, deactivation=1))
    s.card("01 Revoke code 2 after Destroy", (revoke(ONE, 2), named(REVOKE, ONE)))
    s.table("01 line after Revoke code 2, state 6", line_at(0), line(1, 6, 2))


def cards_of_rekey_twice(s):
    s.about("01: Re-key twice on one key.")
    s.blank()
    s.card("01 Re-key twice, Create", (create(), created(ONE)))
    s.card("01 Re-key once", (rekey(ONE), named(REKEY, TWO)))
    s.fails("01 Re-key twice", rekey(ONE), REKEY, PERMISSION_DENIED)
    s.table("01 lines after Re-key twice", line_at(0), line(1, 1, replacement=2) + line(2, 1, replaced=1) + bytes(16))


def cards_of_bad_create(s):
    s.about("01: a bad Create, then Activate without identifier: under Stop one answer, under Continue Invalid Field and Object Not Found.")
    s.blank()
    bad = create(bits=129)
    s.card("01 bad Create, no option", (bad, failed(CREATE, INVALID_FIELD)), (activate(), None))
    s.card("01 bad Create, Stop", (bad, failed(CREATE, INVALID_FIELD)), (activate(), None), option=STOP)
    s.answered("01 bad Create, Continue", request(bad, activate(), option=CONTINUE), PRINTED_BAD_CREATE)
    s.table("01 lead after bad Creates", 0, lead(0))


def cards_of_room_and_batch(s):
    s.about("01 with L6's bound: output 6,359 is refusal 1.")
    s.blank()
    s.say("room 6359")
    s.refused("01 output 6359", PRINTED_CREATE, 1)
    s.table("01 lead after output 6359", 0, lead(0, latest=0))
    s.say("room 6360")
    s.answered("01 output 6360", PRINTED_CREATE, PRINTED_CREATED)
    s.about("01: a batch of 16 runs, one of 17 is refusal 8.")
    s.blank()
    s.refused("01 batch of 17", request(*[create()] * 17), 8)
    s.table("01 lead after a batch of 17", 0, lead(0, latest=0))
    s.card("01 batch of 16", *[(create(), created(f"{serial:08X}")) for serial in range(1, 17)])
    s.table("01 lead after a batch of 16", 0, lead(16))
    s.table("01 body of place 15, from the end of the strip", body_at(15), body(0, 0, 4, fresh(15, 16)))


def full_table(s):
    """64 live keys: Active, without limit, serials 1 to 64 in order."""
    s.blank()
    s.put(0, lead(64)[:4])
    s.put(line_at(0), b"".join(line(serial, 2) for serial in range(1, 65)))


def cards_of_a_full_table(s):
    s.about("01: 64 live keys: Create gives Server Limit Exceeded.")
    full_table(s)
    s.fails("01 64 live keys, Create", create(), CREATE, SERVER_LIMIT_EXCEEDED)
    s.fails("64 live keys, Re-key", rekey(ONE), REKEY, SERVER_LIMIT_EXCEEDED)
    s.table("01 lead after Create on 64 live keys", 0, lead(64))
    s.about("01: place 9 destroyed: the new key sits there and the old identifier is not found.")
    s.card("01 place 9, destroyed", (revoke("0000000A", 1), named(REVOKE, "0000000A")), (destroy("0000000A"), named(DESTROY, "0000000A")))
    s.table("01 line of place 9, destroyed", line_at(9), line(10, 5))
    s.card("01 place 9, Create", (create(bits=256, mask=12), created("00000041")))
    s.table("01 lead after Create in place 9", 0, lead(65))
    s.table("01 lines of places 8 to 10", line_at(8), line(9, 2) + line(65, 1, bits=256) + line(11, 2))
    s.table("01 body of place 9", body_at(9), body(0, 0, 12, fresh(0, 32)))
    s.fails("01 place 9, old identifier", attributes("0000000A"), GET_ATTRIBUTES, OBJECT_NOT_FOUND)
    s.card("01 place 9, new identifier", (attributes("00000041"), shown("00000041", 1, bits=256, mask=12)))
    s.about("A free place comes before a destroyed one, and of destroyed ones (state 5 or 6) the lowest is taken.")
    full_table(s)
    s.put(line_at(9), line(10, 5))
    s.put(line_at(40), bytes(16))
    s.card("free place 40 and destroyed place 9, Create", (create(), created("00000041")))
    s.table("line of place 9 still destroyed", line_at(9), line(10, 5))
    s.table("line of place 40 taken", line_at(40), line(65, 1))
    full_table(s)
    s.put(line_at(9), line(10, 6))
    s.put(line_at(12), line(13, 5))
    s.card("destroyed places 9 and 12, Re-key", (rekey(ONE), named(REKEY, "00000041")))
    s.table("line of place 0 linked", line_at(0), line(1, 2, replacement=65))
    s.table("line of place 9 taken by Re-key", line_at(9), line(65, 1, replaced=1))
    s.table("line of place 12 still destroyed", line_at(12), line(13, 5))


def cards_of_the_last_serial(s):
    s.about('01: last serial FFFFFFFE: Create gives "FFFFFFFF", the next fails.')
    s.blank()
    s.put(0, lead(0xFFFFFFFE)[:4])
    s.card("01 last serial FFFFFFFE, Create", (create(), created("FFFFFFFF")))
    s.fails("01 last serial FFFFFFFF, Create", create(), CREATE, SERVER_LIMIT_EXCEEDED)
    s.fails("last serial FFFFFFFF, Re-key", rekey("FFFFFFFF"), REKEY, SERVER_LIMIT_EXCEEDED)
    s.table("01 lead after the last serial", 0, lead(0xFFFFFFFF))
    s.table("01 lines after the last serial", line_at(0), line(0xFFFFFFFF, 1) + bytes(16))


def cards_of_152_bytes(s):
    s.about('01: Activate of the Pre-Active "00000001", alone, no Unique Batch Item ID: the whole response of 152 bytes as 01 prints it, at clock 1.')
    s.blank()
    s.put(0, lead(1)[:4])
    s.key(0, line(1, 1), body(0, 0, 4, fresh(0, 16)))
    s.answered("01 Activate, 152 bytes", request(activate(ONE)), PRINTED_ACTIVATED)
    s.table("01 line after Activate", line_at(0), line(1, 2))
    s.output("output past the 152 bytes as it was", 152, b"\xFF" * 8)


# ---- one operation after the other: successes, and each failure


def cards_of_create(s):
    s.about("Create: the request worked out beside the papers, on a blank table, with its answer of 168 bytes.")
    s.blank()
    s.answered("Create, printed request", PRINTED_CREATE, PRINTED_CREATED)
    s.table("lead after Create", 0, lead(1))
    s.table("line after Create", line_at(0), line(1, 1))
    s.table("body after Create", body_at(0), body(0, 0, 4, fresh(0, 16)))
    s.about("Values at their edges: each length, masks 0 and 00FFFFFF, totals 1 and 1,000,000,000,000, both units.")
    s.blank()
    trillion = 1_000_000_000_000
    s.card(
        "Create at its edges",
        (create(limit(1, 1), bits=128, mask=4), created(ONE)),
        (create(bits=192, mask=0x00FFFFFF), created(TWO)),
        (create(limit(trillion, 2), bits=256, mask=1), created(THREE)),
        (create(mask=0), created(FOUR)),
    )
    s.table("lines after Create at its edges", line_at(0), line(1, 1, 1, 128) + line(2, 1, 0, 192) + line(3, 1, 2, 256) + line(4, 1))
    bodies = body(1, 1, 4, fresh(0, 16)) + body(0, 0, 0x00FFFFFF, fresh(1, 24)) + body(trillion, trillion, 1, fresh(2, 32)) + body(0, 0, 0, fresh(3, 16))
    s.table("bodies after Create at its edges", body_at(0), bodies)
    s.about("Create: Invalid Field.")
    s.blank()
    key, aes = symmetric_key(), enumeration(CRYPTOGRAPHIC_ALGORITHM, 3)
    bits, mask = integer(CRYPTOGRAPHIC_LENGTH, 128), integer(CRYPTOGRAPHIC_USAGE_MASK, 4)
    total, unit = long_integer(USAGE_LIMITS_TOTAL, 9), enumeration(USAGE_LIMITS_UNIT, 1)
    with_count = structure(USAGE_LIMITS, total, long_integer(USAGE_LIMITS_COUNT, 9), unit)
    for name, payload in [
        ("nothing", []),
        ("no attributes", [key]),
        ("no object type", [wanted()]),
        ("attributes before the object type", [wanted(), key]),
        ("object type 1", [enumeration(OBJECT_TYPE, 1), wanted()]),
        ("object type as Integer", [integer(OBJECT_TYPE, 2), wanted()]),
        ("an identifier", [identifier(ONE), key, wanted()]),
        ("something after the attributes", [key, wanted(), mask]),
        ("algorithm 2", [key, wanted(algorithm=2)]),
        ("length 129", [key, wanted(bits=129)]),
        ("length 512", [key, wanted(bits=512)]),
        ("length -128", [key, wanted(bits=-128)]),
        ("length as Enumeration", [key, structure(ATTRIBUTES, aes, enumeration(CRYPTOGRAPHIC_LENGTH, 128), mask)]),
        ("mask 01000000", [key, wanted(mask=0x01000000)]),
        ("mask -1", [key, wanted(mask=-1)]),
        ("mask as Enumeration", [key, structure(ATTRIBUTES, aes, bits, enumeration(CRYPTOGRAPHIC_USAGE_MASK, 4))]),
        ("no mask", [key, structure(ATTRIBUTES, aes, bits)]),
        ("mask before length", [key, structure(ATTRIBUTES, aes, mask, bits)]),
        ("total 0", [key, wanted(limit(0, 1))]),
        ("total -1", [key, wanted(limit(-1, 1))]),
        ("total 1,000,000,000,001", [key, wanted(limit(trillion + 1, 1))]),
        ("total as Integer", [key, wanted(structure(USAGE_LIMITS, integer(USAGE_LIMITS_TOTAL, 9), unit))]),
        ("unit 0", [key, wanted(limit(9, 0))]),
        ("unit 3", [key, wanted(limit(9, 3))]),
        ("no unit", [key, wanted(structure(USAGE_LIMITS, total))]),
        ("unit before total", [key, wanted(structure(USAGE_LIMITS, unit, total))]),
        ("a count in the limits", [key, wanted(with_count)]),
        ("two limits", [key, wanted(limit(9, 1), limit(9, 1))]),
        ("a limit of 1 and mask 0", [key, wanted(limit(1, 1), mask=0)]),
    ]:
        s.fails(f"Create with {name}", ask(CREATE, *payload), CREATE, INVALID_FIELD)
    s.table("lead after Creates with invalid fields", 0, lead(0))


def six_states(s):
    """Six keys, in states 1 to 6 and with serials 1 to 6; of a total of 100 there are 50 left in each."""
    s.blank()
    s.put(0, lead(6)[:4])
    s.put(line_at(0), b"".join(line(state, state, 2) for state in range(1, 7)))
    s.put(body_at(0), b"".join(stored(state) for state in range(1, 7)))


def six_states_again(s):
    """The same after Revokes, which change no more of them than this."""
    s.put(line_at(0), b"".join(line(state, state, 2) for state in range(1, 7)))
    s.put(body_at(1) + DEACTIVATION_IN, bytes(8))


def material(state):
    return bytes([0xA0 + state] * 16) if state < 5 else b""


def stored(state):
    return body(100, 50, 4, material(state))


def on_six(s, name, operation, ask_of, results, lay_out=six_states):
    """An operation on the six keys, one after the other, under Continue: an answer's identifier, or the reason of a failure."""
    pairs = []
    for serial, result in zip(range(1, 7), results):
        answer = named(operation, result) if isinstance(result, str) else failed(operation, result)
        pairs.append((ask_of(f"{serial:08X}"), answer))
    lay_out(s)
    s.card(name, *pairs, option=CONTINUE)


def lines_of(*states):
    return b"".join(line(serial, state, 2) for serial, state in zip(range(1, 7), states))


FOUR = "00000004"
FIVE = "00000005"
SIX = "00000006"
WRONG = WRONG_STATE


def cards_of_activate(s):
    s.about("Activate: Pre-Active to Active, else Wrong Key Lifecycle State.")
    on_six(s, "Activate on states 1 to 6", ACTIVATE, activate, [ONE, WRONG, WRONG, WRONG, WRONG, WRONG])
    s.table("lines after Activate on states 1 to 6", line_at(0), lines_of(2, 2, 3, 4, 5, 6))
    s.fails("Activate of no key", activate("00000007"), ACTIVATE, OBJECT_NOT_FOUND)
    s.fails("Activate without identifier", activate(), ACTIVATE, OBJECT_NOT_FOUND)
    s.fails("Activate with something after the identifier", activate(TWO, integer(OTHER, 1)), ACTIVATE, INVALID_FIELD)
    s.fails("Activate of no key with something after the identifier", activate("00000007", integer(OTHER, 1)), ACTIVATE, INVALID_FIELD)


def cards_of_revoke(s):
    s.about("Revoke: codes 2 and 3 are compromise (1, 2 and 3 become 4, 5 becomes 6), the others take 2 to 3, else Wrong Key Lifecycle State.")
    for code in range(1, 8):
        compromise = code in (2, 3)
        results = [ONE, TWO, THREE, WRONG, FIVE, WRONG] if compromise else [WRONG, TWO, WRONG, WRONG, WRONG, WRONG]
        lay_out = six_states if code == 1 else six_states_again
        on_six(s, f"Revoke code {code} on states 1 to 6", REVOKE, lambda name: revoke(name, code), results, lay_out)
        after = (4, 4, 4, 4, 6, 6) if compromise else (1, 3, 3, 4, 5, 6)
        s.table(f"lines after Revoke code {code} on states 1 to 6", line_at(0), lines_of(*after))
        dated = body(100, 50, 4, material(2), deactivation=0 if compromise else 1)
        s.table(f"bodies after Revoke code {code} on states 1 to 3", body_at(0), stored(1) + dated + stored(3))
    s.about("Revoke: Object Not Found and Invalid Field.")
    s.fails("Revoke of no key", revoke("00000007", 1), REVOKE, OBJECT_NOT_FOUND)
    s.fails("Revoke without identifier", revoke(None, 1), REVOKE, OBJECT_NOT_FOUND)
    s.fails("Revoke code 0", revoke(TWO, 0), REVOKE, INVALID_FIELD)
    s.fails("Revoke code 8", revoke(TWO, 8), REVOKE, INVALID_FIELD)
    s.fails("Revoke of no key, code 9", revoke("00000007", 9), REVOKE, INVALID_FIELD)
    code = enumeration(REVOCATION_REASON_CODE, 1)
    for name, rest in [
        ("no reason", []),
        ("an empty reason", [structure(REVOCATION_REASON)]),
        ("the code as Integer", [structure(REVOCATION_REASON, integer(REVOCATION_REASON_CODE, 1))]),
        ("a message", [structure(REVOCATION_REASON, code, text(REVOCATION_MESSAGE, "worn out"))]),
        ("something after the reason", [reason_code(1), integer(OTHER, 1)]),
    ]:
        s.fails(f"Revoke with {name}", ask(REVOKE, identifier(TWO), *rest), REVOKE, INVALID_FIELD)


def cards_of_destroy(s):
    s.about("Destroy: 1 and 3 become 5, 4 becomes 6, the material is zeroed, total and count stay. 2: wrong state. 5 and 6: Object Destroyed.")
    on_six(s, "Destroy on states 1 to 6", DESTROY, destroy, [ONE, WRONG, THREE, FOUR, OBJECT_DESTROYED, OBJECT_DESTROYED])
    s.table("lines after Destroy on states 1 to 6", line_at(0), lines_of(5, 2, 5, 6, 5, 6))
    gone = body(100, 50, 4)
    s.table("bodies after Destroy on states 1 to 6", body_at(0), gone + stored(2) + gone * 4)
    s.fails("Destroy of no key", destroy("00000007"), DESTROY, OBJECT_NOT_FOUND)
    s.fails("Destroy without identifier", destroy(), DESTROY, OBJECT_NOT_FOUND)
    s.fails("Destroy with something after the identifier", destroy(TWO, integer(OTHER, 1)), DESTROY, INVALID_FIELD)


def cards_of_allocation(s):
    s.about("Get Usage Allocation: not Active is Wrong Key Lifecycle State; on the Active key, which has 50 left, all of them are granted.")
    on_six(s, "Allocation of 50 on states 1 to 6", ALLOCATE, lambda name: allocate(name, 50), [WRONG, TWO, WRONG, WRONG, WRONG, WRONG])
    used = stored(1) + body(100, 0, 4, material(2)) + stored(3)
    s.table("bodies after Allocation of 50", body_at(0), used)
    s.about("More than the count; and 1,000,000,000,000 at once, of a key that has them.")
    six_states(s)
    s.fails("Allocation of 51", allocate(TWO, 51), ALLOCATE, USAGE_LIMIT_EXCEEDED)
    s.fails("Allocation of 2^63 - 1", allocate(TWO, 2**63 - 1), ALLOCATE, USAGE_LIMIT_EXCEEDED)
    s.table("body after Allocation of too much", body_at(1), stored(2))
    trillion = 1_000_000_000_000
    s.put(body_at(1), body(trillion, trillion))
    s.card("Allocation of 1,000,000,000,000", (allocate(TWO, trillion), named(ALLOCATE, TWO)))
    s.table("body after Allocation of all", body_at(1), body(trillion, 0))
    s.about("A key without limit: Invalid Field if it is Active, however much is asked for; Wrong Key Lifecycle State if it is not.")
    s.blank()
    s.put(0, lead(2)[:4])
    s.put(line_at(0), line(1, 2) + line(2, 1))
    s.fails("Allocation of 1, Active, no limit", allocate(ONE, 1), ALLOCATE, INVALID_FIELD)
    s.fails("Allocation of 2^63 - 1, Active, no limit", allocate(ONE, 2**63 - 1), ALLOCATE, INVALID_FIELD)
    s.fails("Allocation of 1, Pre-Active, no limit", allocate(TWO, 1), ALLOCATE, WRONG_STATE)
    s.about("Object Not Found and Invalid Field. A count below 0 is no large one.")
    six_states(s)
    s.fails("Allocation of no key", allocate("00000007", 1), ALLOCATE, OBJECT_NOT_FOUND)
    s.fails("Allocation without identifier", allocate(None, 1), ALLOCATE, OBJECT_NOT_FOUND)
    s.fails("Allocation of 0", allocate(TWO, 0), ALLOCATE, INVALID_FIELD)
    s.fails("Allocation of -1", allocate(TWO, -1), ALLOCATE, INVALID_FIELD)
    s.fails("Allocation of 0 of no key", allocate("00000007", 0), ALLOCATE, INVALID_FIELD)
    count = long_integer(USAGE_LIMITS_COUNT, 1)
    for name, payload in [
        ("no count", [identifier(TWO)]),
        ("the count as Integer", [identifier(TWO), integer(USAGE_LIMITS_COUNT, 1)]),
        ("the count before the identifier", [count, identifier(TWO)]),
        ("two counts", [identifier(TWO), count, count]),
    ]:
        s.fails(f"Allocation with {name}", ask(ALLOCATE, *payload), ALLOCATE, INVALID_FIELD)
    s.table("bodies after Allocations that failed", body_at(0), b"".join(stored(state) for state in range(1, 7)))


def cards_of_rekey(s):
    s.about("Re-key: attributes copied, new material, count = total, without dates Pre-Active, linked both ways; the old record changes its replacement only.")
    results = ["00000007", "00000008", "00000009", "0000000A", OBJECT_DESTROYED, OBJECT_DESTROYED]
    on_six(s, "Re-key on states 1 to 6", REKEY, rekey, results)
    s.table("lead after Re-key on states 1 to 6", 0, lead(10))
    old = b"".join(line(serial, serial, 2, replacement=serial + 6) for serial in range(1, 5)) + line(5, 5, 2) + line(6, 6, 2)
    new = b"".join(line(serial + 6, 1, 2, replaced=serial) for serial in range(1, 5))
    s.table("old lines after Re-key on states 1 to 6", line_at(0), old)
    s.table("new lines after Re-key on states 1 to 6", line_at(6), new + bytes(16))
    s.table("old bodies after Re-key on states 1 to 6", body_at(0), b"".join(stored(state) for state in range(1, 7)))
    s.table("new bodies after Re-key on states 1 to 6", body_at(6), b"".join(body(100, 100, 4, fresh(item, 16)) for item in range(4)))
    s.about("Failures. A destroyed key with a replacement is Object Destroyed; a replacement that stands no more is Permission Denied all the same.")
    s.put(line_at(4), line(5, 5, 2, replacement=6))
    s.put(line_at(5), line(6, 6, 2, replaced=5))
    s.fails("Re-key of a destroyed key with a replacement", rekey(FIVE), REKEY, OBJECT_DESTROYED)
    s.fails("Re-key of a key with a replacement", rekey(ONE), REKEY, PERMISSION_DENIED)
    s.put(line_at(6), bytes(16))
    s.put(body_at(6), bytes(BODY_SIZE))
    s.fails("Re-key of a key whose replacement is gone", rekey(ONE), REKEY, PERMISSION_DENIED)
    s.fails("Re-key of no key", rekey("0000000B"), REKEY, OBJECT_NOT_FOUND)
    s.fails("Re-key without identifier", rekey(), REKEY, OBJECT_NOT_FOUND)
    s.fails("Re-key with something after the identifier", rekey("00000008", integer(OTHER, 1)), REKEY, INVALID_FIELD)
    s.fails("Re-key of a destroyed key with something after the identifier", rekey(FIVE, integer(OTHER, 1)), REKEY, INVALID_FIELD)
    s.table("lead after Re-keys that failed", 0, lead(10))
    s.about("Lengths and masks are copied, and the length says how much of the strip is taken.")
    s.blank()
    s.put(0, lead(2)[:4])
    s.key(0, line(1, 2, 0, 192), body(0, 0, 0x00FFFFFF, bytes(24)))
    s.key(1, line(2, 4, 1, 256), body(7, 0, 0, bytes([1] * 32)))
    s.card("Re-key of 192 and 256 bits", (rekey(ONE), named(REKEY, THREE)), (rekey(TWO), named(REKEY, FOUR)))
    s.table("lines after Re-key of 192 and 256 bits", line_at(2), line(3, 1, 0, 192, replaced=1) + line(4, 1, 1, 256, replaced=2))
    s.table("bodies after Re-key of 192 and 256 bits", body_at(2), body(0, 0, 0x00FFFFFF, fresh(0, 24)) + body(7, 7, 0, fresh(1, 32)))


def cards_of_single_changes(s):
    s.about("Changes of state that are not among 01's cards, each by a request of its own.")
    six_states(s)
    for name, serial in [(ONE, 1), (TWO, 2), (THREE, 3)]:
        s.card(f"compromise in state {serial}, alone", (revoke(name, 2), named(REVOKE, name)))
    s.table("lines after compromise alone", line_at(0), lines_of(4, 4, 4, 4, 5, 6))
    s.card("Destroy in state 4, alone", (destroy(FOUR), named(DESTROY, FOUR)))
    s.table("lines after Destroy in state 4", line_at(0), lines_of(4, 4, 4, 6, 5, 6))
    six_states(s)
    s.card("Destroy in state 1, alone", (destroy(ONE), named(DESTROY, ONE)))
    s.table("lines after Destroy in state 1", line_at(0), lines_of(5, 2, 3, 4, 5, 6))


def cards_of_attributes(s):
    s.about("Get Attributes: in every state, with a limit.")
    six_states(s)
    pairs = [(attributes(f"{n:08X}"), shown(f"{n:08X}", n, limit=(100, 50, 2))) for n in range(1, 7)]
    s.card("Get Attributes on states 1 to 6", *pairs)
    s.fails("Get Attributes of no key", attributes("00000007"), GET_ATTRIBUTES, OBJECT_NOT_FOUND)
    s.fails("Get Attributes without identifier", attributes(), GET_ATTRIBUTES, OBJECT_NOT_FOUND)
    s.fails("Get Attributes with something after the identifier", attributes(ONE, integer(OTHER, 1)), GET_ATTRIBUTES, INVALID_FIELD)
    s.about("No limit and no link; a limit and both links, which with an ID of 16 bytes make an item of 296 bytes; links whose other end is gone.")
    s.blank()
    s.put(0, lead(9)[:4])
    s.key(0, line(1, 3, 0, 256, replacement=2), body(0, 0, 0x00FFFFFF, bytes([1] * 32)))
    s.key(1, line(2, 2, 1, 192, 1, 4), body(1000, 999, 12, bytes([2] * 24)))
    s.key(2, line(4, 1, 1, 192, 2), body(1000, 1000, 12, bytes([3] * 24)))
    s.key(3, line(7, 6, 0, 128, 5, 8), body(0, 0, 0))
    s.key(4, line(9, 2), body(0, 0, 4, bytes([4] * 16)))
    s.card("Get Attributes, no limit, no link", (attributes("00000009"), shown("00000009", 2)))
    s.card("Get Attributes, no limit, replacement", (attributes(ONE), shown(ONE, 3, 256, 0x00FFFFFF, replacement=TWO)))
    s.card("Get Attributes, limit, replaced", (attributes(FOUR), shown(FOUR, 1, 192, 12, (1000, 1000, 1), replaced=TWO)))
    id = bytes(range(0xC0, 0xD0))
    full = shown(TWO, 2, 192, 12, (1000, 999, 1), ONE, FOUR, id=id)
    assert len(full) == 296
    s.card("Get Attributes, limit, both links, ID of 16 bytes", (attributes(TWO, id=id), full))
    dangling = shown("00000007", 6, 128, 0, replaced=FIVE, replacement="00000008")
    s.card("Get Attributes, destroyed, both links gone", (attributes("00000007"), dangling))
    s.about("L6: the longest response: sixteen such items, each with both dates and a name of 32 bytes: 392 bytes an item, 6,360 in all.")
    letters = "station 12, row 3, step no. 0471"
    s.put(body_at(1) + ACTIVATION_IN, numbers(1, 2**63 - 1) + name_field(letters))
    ids = [bytes(range(16 * n, 16 * n + 16)) for n in range(16)]
    pairs = [(attributes(TWO, id=id), shown(TWO, 2, 192, 12, (1000, 999, 1), ONE, FOUR, 1, 2**63 - 1, letters, id=id)) for id in ids]
    assert len(pairs[0][1]) == 392 and len(response(*[answer for _, answer in pairs])) == 6360
    s.card("L6 response of 6360 bytes", *pairs, option=STOP)
    s.output("L6 output past the 6360 bytes as it was", 6360, b"\xFF" * 8)
    s.about("L6: a name of 24 bytes makes it shorter by 8 bytes an item, and one of 25 does not.")
    for length, size in [(24, 384), (25, 392)]:
        s.put(body_at(1) + NAME_IN, name_field(letters[:length]))
        full = shown(TWO, 2, 192, 12, (1000, 999, 1), ONE, FOUR, 1, 2**63 - 1, letters[:length], id=ids[0])
        assert len(full) == size
        s.card(f"L6 Get Attributes, everything, name of {length} bytes", (attributes(TWO, id=ids[0]), full))


def cards_of_get(s):
    s.about("Get: keys of 128, 192 and 256 bits, each with its whole response; nothing is changed.")
    s.blank()
    s.put(0, lead(3)[:4])
    keys = [bytes(range(16)), bytes(range(0x20, 0x38)), bytes(range(0xE0, 0x100))]
    lines = b"".join(line(serial, 2, bits=8 * len(key)) for serial, key in zip(range(1, 4), keys))
    s.put(line_at(0), lines)
    s.put(body_at(0), b"".join(body(0, 0, 4, key) for key in keys))
    for name, key in zip((ONE, TWO, THREE), keys):
        s.card(f"Get of {8 * len(key)} bits", (get(name), handed(name, key)))
    s.table("lines after Get", line_at(0), lines)
    s.table("bodies after Get", body_at(0), b"".join(body(0, 0, 4, key) for key in keys))
    s.about("Get on states 1 to 6: every state but 5 and 6 answers the material; a compromised key is handed out, and a limit plays no part.")
    six_states(s)
    pairs = [(get(f"{n:08X}"), handed(f"{n:08X}", material(n))) for n in range(1, 5)]
    pairs += [(get(f"{n:08X}"), failed(GET, OBJECT_DESTROYED)) for n in (5, 6)]
    s.card("Get on states 1 to 6", *pairs, option=CONTINUE)
    s.table("bodies after Get on states 1 to 6", body_at(0), b"".join(stored(state) for state in range(1, 7)))
    s.about("Get: Object Not Found, and Invalid Field for anything but an identifier.")
    s.fails("Get of no key", get("00000007"), GET, OBJECT_NOT_FOUND)
    s.fails("Get without identifier", get(), GET, OBJECT_NOT_FOUND)
    s.fails("Get in lower case", get("0000000a"), GET, OBJECT_NOT_FOUND)
    s.fails("Get of eight zeros", get("00000000"), GET, OBJECT_NOT_FOUND)
    for name, payload in [
        ("the identifier as Integer", [integer(UNIQUE_IDENTIFIER, 1)]),
        ("a second identifier", [identifier(ONE), identifier(ONE)]),
        ("a Key Format Type", [identifier(ONE), enumeration(KEY_FORMAT_TYPE, 1)]),
        ("a Key Format Type alone", [enumeration(KEY_FORMAT_TYPE, 1)]),
        ("a Key Wrap Type", [identifier(ONE), enumeration(KEY_WRAP_TYPE, 1)]),
        ("something after a destroyed key's identifier", [identifier(FIVE), integer(OTHER, 1)]),
    ]:
        s.fails(f"Get with {name}", ask(GET, *payload), GET, INVALID_FIELD)
    s.about("By the placeholder: after Create the new key, after Re-key the replacement and not the old key; Get keeps it.")
    s.blank()
    s.card(
        "Get after Create, by the placeholder",
        (create(bits=256), created(ONE)),
        (get(), handed(ONE, fresh(0, 32))),
        (activate(), named(ACTIVATE, ONE)),
        (get(), handed(ONE, fresh(0, 32))),
    )
    s.card(
        "Get after Re-key, by the placeholder",
        (get(ONE), handed(ONE, fresh(0, 32))),
        (rekey(ONE), named(REKEY, TWO)),
        (get(), handed(TWO, fresh(1, 32))),
        (get(ONE), handed(ONE, fresh(0, 32))),
        (get(), handed(TWO, fresh(1, 32))),
    )
    s.card(
        "Get that fails empties the placeholder",
        (create(), created(THREE)),
        (get("0000FFFF"), failed(GET, OBJECT_NOT_FOUND)),
        (get(), failed(GET, OBJECT_NOT_FOUND)),
        option=CONTINUE,
    )
    s.about("Destroy and Get in one batch: nothing is handed out behind the Destroy, nor in a later request.")
    s.card(
        "Get before and after Destroy in one batch",
        (get(THREE), handed(THREE, fresh(0, 16))),
        (destroy(THREE), named(DESTROY, THREE)),
        (get(THREE), failed(GET, OBJECT_DESTROYED)),
        option=CONTINUE,
    )
    s.fails("Get after Destroy, a later request", get(THREE), GET, OBJECT_DESTROYED)
    s.card(
        "Get by the placeholder of a key just destroyed",
        (create(), created(FOUR)),
        (destroy(), named(DESTROY, FOUR)),
        (get(), failed(GET, OBJECT_DESTROYED)),
    )
    s.about("The place of a destroyed key is taken over: the new key is handed out, the old identifier is found no more.")
    full_table(s)
    s.put(line_at(9), line(10, 5))
    s.card(
        "Get in the batch in which the place was taken",
        (get("0000000A"), failed(GET, OBJECT_DESTROYED)),
        (create(), created("00000041")),
        (get(), handed("00000041", fresh(1, 16))),
        (get("0000000A"), failed(GET, OBJECT_NOT_FOUND)),
        option=CONTINUE,
    )
    s.about("Sixteen Gets of 256 bits with IDs of 16 bytes: items of 216 bytes, 3,544 in all.")
    s.blank()
    s.put(0, lead(1)[:4])
    s.key(0, line(1, 2, bits=256), body(0, 0, 4, keys[2]))
    ids = [bytes(range(16 * n, 16 * n + 16)) for n in range(16)]
    pairs = [(get(ONE, id=id), handed(ONE, keys[2], id=id)) for id in ids]
    assert len(response(*[answer for _, answer in pairs])) == 88 + 16 * 216 == 3544
    s.card("sixteen Gets", *pairs, option=STOP)
    s.output("output past the 3544 bytes as it was", 3544, b"\xFF" * 8)


def cards_of_other_operations(s):
    s.about("Operation Not Supported, whatever stands in the payload; the operation is echoed.")
    s.blank()
    for name, operation in [("0", 0), ("Get Attribute List", 0x0C), ("Re-certify", 0x07), ("Check", 0x09), ("Ping", 0x3B), ("FFFFFFFF", 0xFFFFFFFF)]:
        s.fails(f"operation {name}", ask(operation), operation, NOT_SUPPORTED)
    s.fails("operation Get Attribute List with an identifier as Integer", ask(0x0C, integer(UNIQUE_IDENTIFIER, 1)), 0x0C, NOT_SUPPORTED)


def cards_of_identifiers(s):
    s.about("Identifier text: the serial as 8 upper-case hex digits; any other text, and eight zeros, names no record. Key 10 stands at place 0.")
    s.blank()
    s.put(0, lead(10)[:4])
    s.key(0, line(10, 2), body())
    s.card("identifier 0000000A", (attributes("0000000A"), shown("0000000A", 2)))
    for name, letters in [
        ("in lower case", "0000000a"),
        ("of seven digits", "000000A"),
        ("of nine digits", "00000000A"),
        ("of sixteen digits", "000000000000000A"),
        ("of eight zeros", "00000000"),
        ("of no letters", ""),
        ("with a blank", "0000000A "),
        ("key", "key"),
        ("FFFFFFFF", "FFFFFFFF"),
    ]:
        s.fails(f"identifier {name}", attributes(letters), GET_ATTRIBUTES, OBJECT_NOT_FOUND)
    # the neighbours of 0 to 9 and of A to F; then characters whose low half is ten, or that of the letter A
    for character in "/:@G*JQ":
        s.fails(f"identifier of seven zeros and {ord(character):02X}", attributes("0000000" + character), GET_ATTRIBUTES, OBJECT_NOT_FOUND)
    for letters in ["G000000A", "000G000A", "000000GA"]:
        s.fails(f"identifier {letters}", attributes(letters), GET_ATTRIBUTES, OBJECT_NOT_FOUND)
    for name, first in [
        ("as Enumeration", enumeration(UNIQUE_IDENTIFIER, 1)),
        ("as Integer", integer(UNIQUE_IDENTIFIER, 10)),
        ("as Byte String", byte_string(UNIQUE_IDENTIFIER, b"0000000A")),
        ("as structure", structure(UNIQUE_IDENTIFIER, identifier("0000000A"))),
    ]:
        s.fails(f"identifier {name}", ask(GET_ATTRIBUTES, first), GET_ATTRIBUTES, INVALID_FIELD)
    twice = ask(GET_ATTRIBUTES, identifier("0000000A"), identifier("0000000A"))
    s.fails("identifier given twice", twice, GET_ATTRIBUTES, INVALID_FIELD)
    s.fails("identifier under another tag", ask(GET_ATTRIBUTES, text(OTHER, "0000000A")), GET_ATTRIBUTES, INVALID_FIELD)
    s.about("Every digit, highest first: keys 01234567 and 89ABCDEF.")
    s.put(0, lead(0x89ABCDEF)[:4])
    s.key(0, line(0x01234567, 2), body())
    s.key(1, line(0x89ABCDEF, 2), body())
    for name in ["01234567", "89ABCDEF"]:
        s.card(f"identifier {name}", (attributes(name), shown(name, 2)))
    for letters in ["76543210", "89abcdef"]:
        s.fails(f"identifier {letters}", attributes(letters), GET_ATTRIBUTES, OBJECT_NOT_FOUND)


def cards_of_the_placeholder(s):
    s.about("Create and Re-key set the placeholder, other successes keep it.")
    s.blank()
    s.card(
        "placeholder of Create, through a life",
        (create(limit(10, 1)), created(ONE)),
        (activate(), named(ACTIVATE, ONE)),
        (allocate(None, 10), named(ALLOCATE, ONE)),
        (attributes(), shown(ONE, 2, limit=(10, 0, 1), activation=1)),
        (revoke(None, 1), named(REVOKE, ONE)),
        (destroy(), named(DESTROY, ONE)),
        (attributes(), shown(ONE, 5, limit=(10, 0, 1), activation=1, deactivation=1)),
    )
    s.card(
        "placeholder of Re-key",
        (create(), created(TWO)),
        (rekey(), named(REKEY, THREE)),
        (rekey(), named(REKEY, FOUR)),
        (attributes(), shown(FOUR, 1, replaced=THREE)),
    )
    s.card(
        "placeholder kept by an item with an identifier",
        (create(), created(FIVE)),
        (activate(FOUR), named(ACTIVATE, FOUR)),
        (attributes(), shown(FIVE, 1)),
    )
    s.about("It is empty when a request begins, and a failed item of whatever kind empties it; an item with an identifier does not set it.")
    s.fails("placeholder empty at first", attributes(), GET_ATTRIBUTES, OBJECT_NOT_FOUND)
    s.card(
        "placeholder not set by an identifier",
        (attributes(FIVE), shown(FIVE, 1)),
        (attributes(), failed(GET_ATTRIBUTES, OBJECT_NOT_FOUND)),
    )
    s.card(
        "placeholder emptied by Operation Not Supported",
        (create(), created(SIX)),
        (ask(0x3B), failed(0x3B, NOT_SUPPORTED)),
        (attributes(), failed(GET_ATTRIBUTES, OBJECT_NOT_FOUND)),
        option=CONTINUE,
    )
    s.card(
        "placeholder emptied by an identifier that names nothing",
        (create(), created("00000007")),
        (attributes("0000FFFF"), failed(GET_ATTRIBUTES, OBJECT_NOT_FOUND)),
        (attributes(), failed(GET_ATTRIBUTES, OBJECT_NOT_FOUND)),
        option=CONTINUE,
    )
    s.card(
        "placeholder emptied by an item that used it",
        (create(), created("00000008")),
        (allocate(None, 1), failed(ALLOCATE, WRONG_STATE)),
        (activate(), failed(ACTIVATE, OBJECT_NOT_FOUND)),
        (create(), created("00000009")),
        (activate(), named(ACTIVATE, "00000009")),
        option=CONTINUE,
    )


def cards_of_batches(s):
    s.about("Under Stop nothing after the first failed item is carried out; under Continue it is. The strip is shared out by position, failed items counted.")
    s.blank()
    s.card("Stop, then nothing", (create(bits=129), failed(CREATE, INVALID_FIELD)), (create(), None), (create(), None), option=STOP)
    s.table("lead after Stop", 0, lead(0))
    s.card("Continue, then a key", (create(bits=129), failed(CREATE, INVALID_FIELD)), (create(), created(ONE)), option=CONTINUE)
    s.table("lead after Continue", 0, lead(1))
    s.table("body after Continue, from byte 32 of the strip", body_at(0), body(0, 0, 4, fresh(1, 16)))
    s.about("Unique Batch Item IDs of 1, 8, 9 and 16 bytes are echoed, repeats too; an item without one has none in its answer.")
    for length in (1, 8, 9, 16):
        id = bytes(range(0xF0, 0xF0 + length))
        s.card(f"ID of {length} bytes", (attributes(ONE, id=id), shown(ONE, 1, id=id)))
    s.card(
        "IDs that repeat, in a batch with and without",
        (activate(ONE, id=b"\0"), named(ACTIVATE, ONE, id=b"\0")),
        (activate(ONE, id=b"\0"), failed(ACTIVATE, WRONG_STATE, id=b"\0")),
        (attributes(ONE), shown(ONE, 2, activation=1)),
        (ask(0x3B, id=b"last"), failed(0x3B, NOT_SUPPORTED, id=b"last")),
        option=CONTINUE,
    )


# ---- L3: the clock, and dates that act


def cards_of_clocks(s):
    s.about("L3: a clock given below 1 is refusal 10, whatever the latest seen; any other is taken, is the Time Stamp and is stored.")
    key_to_activate(s)
    asked = request(activate(ONE))
    for clock in (0, -1, -(2**63)):
        s.say(f"clock {clock}")
        s.refused(f"refusal 10, clock {clock}", asked, 10)
    s.table("lead and line after refusal 10", 0, lead(1, latest=0) + line(1, 1))
    for clock in (1, 1205495800, 2**63 - 1):
        s.say(f"clock {clock}")
        s.fails(f"clock {clock}", attributes(), GET_ATTRIBUTES, OBJECT_NOT_FOUND, clock=clock)
        s.table(f"lead after clock {clock}", 0, lead(1, latest=clock))
    stamped = response(failed(GET_ATTRIBUTES, OBJECT_NOT_FOUND), clock=2**63 - 1)
    assert stamped[56:72] == unhex("42009209 00000008 7FFFFFFF FFFFFFFF")
    s.say("clock 0")
    s.refused("refusal 10, clock 0 after clock 2^63 - 1", asked, 10)


def dated(state, activation=0, deactivation=0):
    """The body of a key that was in this state when it was laid out; of a total of 100 there are 50 left."""
    return body(100, 50, 4, material(state), activation, deactivation)


def dated_keys(s, latest, *keys):
    """Keys with serials from 1 on, each given by its state and its dates, and the latest clock seen."""
    s.blank()
    s.put(0, lead(len(keys), latest))
    s.put(line_at(0), b"".join(line(serial, key[0], 2) for serial, key in enumerate(keys, 1)))
    s.put(body_at(0), b"".join(dated(*key) for key in keys))


def in_states(*states):
    """The lines of such keys in these states."""
    return b"".join(line(serial, state, 2) for serial, state in enumerate(states, 1))


def cards_of_a_clock_that_goes_back(s):
    s.about("L3: a clock earlier than the latest seen counts as the latest: in the Time Stamp, in dates that are set, in what is due and what is late.")
    keys = [(1,), (2,), (1, 70), (1, 0, 70), (2, 0, 70)]
    dated_keys(s, 100, *keys)
    s.say("clock 0")
    s.refused("refusal 10, clock 0 after 100", request(attributes(), option=STOP), 10)
    s.table("lead and lines after clock 0", 0, lead(5, latest=100) + in_states(1, 2, 1, 1, 2))
    s.say("clock 40")
    s.card(
        "clock 40 after 100",
        (activate(ONE), named(ACTIVATE, ONE)),
        (revoke(TWO, 1), named(REVOKE, TWO)),
        (attributes(THREE), shown(THREE, 2, limit=(100, 50, 2), activation=70)),
        (activate(FOUR), failed(ACTIVATE, WRONG)),
        clock=100,
    )
    s.table("lead and lines after clock 40", 0, lead(5, latest=100) + in_states(2, 3, 2, 1, 3))
    s.table("bodies after clock 40", body_at(0), dated(1, 100) + dated(2, 0, 100) + b"".join(dated(*key) for key in keys[2:]))


def cards_of_clocks_at_their_edges(s):
    s.about("L3: clocks one before, at and one after the latest seen, which is 100; a key starts at 101.")
    dated_keys(s, 100, (1, 101))
    for clock, counts, state in [(99, 100, 1), (100, 100, 1), (101, 101, 2)]:
        s.say(f"clock {clock}")
        s.fails(f"latest 100, clock {clock}", attributes(), GET_ATTRIBUTES, OBJECT_NOT_FOUND, clock=counts)
        s.table(f"lead and line at latest 100, clock {clock}", 0, lead(1, latest=counts) + in_states(state))
    s.about("The first clock that is taken, on a table that has seen none; dates of 1 and 2.")
    dated_keys(s, 0, (1, 1), (1, 2), (2, 0, 1), (1, 1, 1))
    s.say("clock 1")
    s.fails("dates at clock 1", attributes(), GET_ATTRIBUTES, OBJECT_NOT_FOUND)
    s.table("lead and lines at clock 1", 0, lead(4) + in_states(2, 1, 3, 3))
    s.about("The last one, 2^63 - 1, which stays the latest for ever; dates of 2^63 - 2 and 2^63 - 1.")
    most = 2**63 - 1
    dated_keys(s, 50, (1, most), (1, most - 1), (2, 50, most), (1, 0, most))
    s.say(f"clock {most - 1}")
    s.fails("dates at clock 2^63 - 2", attributes(), GET_ATTRIBUTES, OBJECT_NOT_FOUND, clock=most - 1)
    s.table("lead and lines at clock 2^63 - 2", 0, lead(4, latest=most - 1) + in_states(1, 2, 2, 1))
    s.say(f"clock {most}")
    s.fails("Activate at clock 2^63 - 1", activate(FOUR), ACTIVATE, WRONG, clock=most)
    s.table("lead and lines at clock 2^63 - 1", 0, lead(4, latest=most) + in_states(2, 2, 3, 1))
    s.say("clock 1")
    s.card("clock 1 after 2^63 - 1", (attributes(THREE), shown(THREE, 3, limit=(100, 50, 2), activation=50, deactivation=most)), clock=most)
    s.table("lead after clock 1 after 2^63 - 1", 0, lead(4, latest=most))


def cards_of_clocks_that_are_not_stored(s):
    s.about("L3: a refused request stores no clock and makes no due change; an accepted one of which every item fails does both.")
    dated_keys(s, 100, (1, 500), (2, 50, 500))
    s.say("clock 500")
    s.refused("refusal 9 at clock 500", request(attributes(), option=4), 9)
    s.table("lead and lines after refusal 9 at clock 500", 0, lead(2, latest=100) + in_states(1, 2))
    failures = [(attributes(), failed(GET_ATTRIBUTES, OBJECT_NOT_FOUND)), (create(bits=129), failed(CREATE, INVALID_FIELD))]
    s.card("every item fails at clock 500", *failures, option=CONTINUE, clock=500)
    s.table("lead and lines after every item failed", 0, lead(2, latest=500) + in_states(2, 3))


def cards_of_create_with_dates(s):
    s.about("L3: Create takes both dates as optional last attributes, from 1 up. It starts Pre-Active, also where a date has come.")
    s.blank()
    most = 2**63 - 1
    s.card("Create with a limit and both dates", (create(limit(9, 1), starts(3), ends(4)), created(ONE)))
    given = [(5, 0), (0, 5), (5, 6), (7, 7), (most, most), (1, 1)]
    for serial, (activation, deactivation) in enumerate(given, 2):
        more = ([starts(activation)] if activation else []) + ([ends(deactivation)] if deactivation else [])
        s.card(f"Create with dates {activation} and {deactivation}", (create(*more), created(f"{serial:08X}")))
    s.table("lines after Create with dates", line_at(0), line(1, 1, 1) + b"".join(line(serial, 1) for serial in range(2, 8)))
    bodies = b"".join(body(0, 0, 4, fresh(0, 16), *dates) for dates in given)
    s.table("bodies after Create with dates", body_at(0), body(9, 9, 4, fresh(0, 16), 3, 4) + bodies)


def cards_of_create_with_wrong_dates(s):
    s.about("L3: Create, Invalid Field: dates below 1, and deactivation before activation.")
    s.blank()
    refused = failed(CREATE, INVALID_FIELD)
    dates = [[starts(0)], [starts(-1)], [starts(-(2**63)), ends(9)], [starts(9), ends(0)], [ends(0)], [ends(-1)], [starts(9), ends(8)]]
    s.card("Create with dates that are not allowed", *[(create(*more), refused) for more in dates], option=CONTINUE)
    s.about("The same for what is no Date-Time, given twice, in another order, before the limit or the mask, or followed by something.")
    aes, bits, mask = enumeration(CRYPTOGRAPHIC_ALGORITHM, 3), integer(CRYPTOGRAPHIC_LENGTH, 128), integer(CRYPTOGRAPHIC_USAGE_MASK, 4)
    shapes = [
        wanted(long_integer(ACTIVATION_DATE, 9)),
        wanted(date_time_extended(ACTIVATION_DATE, 9)),
        wanted(interval(DEACTIVATION_DATE, 9)),
        wanted(starts(9), starts(9)),
        wanted(ends(9), ends(9)),
        wanted(ends(9), starts(9)),
        wanted(starts(9), ends(9), limit(9, 1)),
        structure(ATTRIBUTES, aes, bits, starts(9), mask),
        wanted(starts(9), ends(9), integer(OTHER, 1)),
    ]
    s.card("Create with dates of wrong shape", *[(ask(CREATE, symmetric_key(), shape), refused) for shape in shapes], option=CONTINUE)
    s.table("lead after Creates with wrong dates", 0, lead(0))
    full_table(s)
    s.fails("64 live keys, Create with activation 0", create(starts(0)), CREATE, INVALID_FIELD)


def cards_of_due_changes(s):
    s.about(
        "L3: before the first item every Pre-Active key whose set activation date is at or before the clock becomes Active, and then every Active key",
        "whose set deactivation date is at or before it Deactivated; other states stay. The clock is 100, and the only item fails.",
    )
    keys = [(1, 99), (1, 100), (1, 101), (1,), (1, 0, 99), (1, 100, 101), (1, 100, 100), (1, 1, 2)]
    after = [2, 2, 1, 1, 1, 2, 3, 3]
    keys += [(2, 0, 99), (2, 50, 100), (2, 50, 101), (2, 50), (3, 50, 60), (4, 50, 60), (4, 200), (5, 50, 60), (6, 50, 60)]
    after += [3, 3, 2, 2, 3, 4, 4, 5, 6]
    dated_keys(s, 50, *keys)
    s.say("clock 100")
    s.fails("due changes at clock 100", attributes(), GET_ATTRIBUTES, OBJECT_NOT_FOUND, clock=100)
    s.table("lead and lines after the due changes", 0, lead(17, latest=100) + in_states(*after))
    s.table("bodies after the due changes, as they were", body_at(0), b"".join(dated(*key) for key in keys))


def cards_of_due_changes_everywhere(s):
    s.about("L3: due changes at the first and the last place of a full table, and what the items of the same request find.")
    full_table(s)
    s.put(line_at(0) + 4, b"\1")
    s.put(body_at(0) + ACTIVATION_IN, numbers(7))
    s.put(body_at(63) + DEACTIVATION_IN, numbers(7))
    s.say("clock 6")
    s.fails("clock 6, one before the dates", destroy("00000040"), DESTROY, WRONG, clock=6)
    s.table("line of place 0 at clock 6", line_at(0), line(1, 1))
    s.say("clock 7")
    s.card(
        "clock 7, the dates have come",
        (destroy(ONE), failed(DESTROY, WRONG)),
        (destroy("00000040"), named(DESTROY, "00000040")),
        option=CONTINUE,
        clock=7,
    )
    s.table("lines of places 0 and 1 at clock 7", line_at(0), line(1, 2) + line(2, 2))
    s.table("lines of places 62 and 63 at clock 7", line_at(62), line(63, 2) + line(64, 5))


def cards_of_dates_in_one_batch(s):
    s.about("L3: a date that has come acts at the next accepted request, and not in the batch of its Create; but an Activate there is late already.")
    s.blank()
    s.say("clock 10")
    s.card(
        "Create with dates that have come, in one batch",
        (create(limit(100, 2), starts(10)), created(ONE)),
        (allocate(None, 1), failed(ALLOCATE, WRONG)),
        (create(limit(100, 2), starts(9), ends(10)), created(TWO)),
        (activate(), failed(ACTIVATE, WRONG)),
        (create(starts(9)), created(THREE)),
        (activate(), named(ACTIVATE, THREE)),
        option=CONTINUE,
        clock=10,
    )
    s.table("lines after that batch", line_at(0), line(1, 1, 2) + line(2, 1, 2) + line(3, 2))
    s.table("body of the key that was activated over its date", body_at(2), body(0, 0, 4, fresh(4, 16), 10))
    s.card(
        "the request after that batch",
        (allocate(ONE, 1), named(ALLOCATE, ONE)),
        (attributes(TWO), shown(TWO, 3, limit=(100, 100, 2), activation=9, deactivation=10)),
        (allocate(TWO, 1), failed(ALLOCATE, WRONG)),
        clock=10,
    )
    s.table("lines after the request after that batch", line_at(0), line(1, 2, 2) + line(2, 3, 2) + line(3, 2))


def cards_of_activate_with_dates(s):
    s.about("L3: Activate sets its date to the clock, over one that was set; with a deactivation date at or before the clock it fails.")
    dated_keys(s, 50, (1, 0, 99), (1, 0, 100), (1, 0, 101), (1, 200), (1, 200, 300), (1,))
    s.say("clock 100")
    for name in (ONE, TWO):
        s.fails(f"Activate past the deactivation date, {name}", activate(name), ACTIVATE, WRONG, clock=100)
    for name in (THREE, FOUR, FIVE, SIX):
        s.card(f"Activate with dates, {name}", (activate(name), named(ACTIVATE, name)), clock=100)
    s.table("lines after Activate with dates", line_at(0), in_states(1, 1, 2, 2, 2, 2))
    bodies = dated(1, 0, 99) + dated(1, 0, 100) + dated(1, 100, 101) + dated(1, 100) + dated(1, 100, 300) + dated(1, 100)
    s.table("bodies after Activate with dates", body_at(0), bodies)


def cards_of_revoke_with_dates(s):
    s.about("L3: a Revoke that is no compromise sets its date to the clock, over one to come; a key that its date has stopped is not stopped again.")
    dated_keys(s, 50, (2, 50), (2, 50, 200), (2,), (2, 50, 60), (1, 100))
    s.say("clock 100")
    for name, code in [(ONE, 1), (TWO, 5), (THREE, 7), (FIVE, 5)]:
        s.card(f"Revoke with dates, {name}", (revoke(name, code), named(REVOKE, name)), clock=100)
    s.fails("Revoke of a key that its date has stopped", revoke(FOUR, 5), REVOKE, WRONG, clock=100)
    s.table("lines after Revoke with dates", line_at(0), in_states(3, 3, 3, 3, 3))
    s.table("bodies after Revoke with dates", body_at(0), dated(2, 50, 100) * 2 + dated(2, 0, 100) + dated(2, 50, 60) + dated(1, 100, 100))


def cards_of_dates_kept(s):
    s.about("L3: compromise, Destroy and Get Usage Allocation leave the dates.")
    dated_keys(s, 50, (2, 50, 200), (1, 200, 300), (3, 40, 50), (4, 200, 300), (2, 50, 200))
    s.say("clock 100")
    s.card(
        "dates that are kept",
        (revoke(ONE, 2), named(REVOKE, ONE)),
        (revoke(TWO, 3), named(REVOKE, TWO)),
        (destroy(THREE), named(DESTROY, THREE)),
        (destroy(FOUR), named(DESTROY, FOUR)),
        (allocate(FIVE, 50), named(ALLOCATE, FIVE)),
        clock=100,
    )
    s.table("lines after dates were kept", line_at(0), in_states(4, 4, 5, 6, 2))
    gone = body(100, 50, 4, b"", 40, 50) + body(100, 50, 4, b"", 200, 300)
    s.table("bodies after dates were kept", body_at(0), dated(2, 50, 200) + dated(1, 200, 300) + gone + body(100, 0, 4, material(2), 50, 200))


def cards_of_attributes_with_dates(s):
    s.about("L3: Get Attributes shows the dates that are set, after State, in every state.")
    keys = [(1,), (1, 200), (1, 0, 200), (2, 50, 200), (5, 50, 60)]
    dated_keys(s, 50, *keys)
    s.say("clock 100")
    pairs = []
    for serial, (state, *dates) in enumerate(keys, 1):
        activation, deactivation = (dates + [0, 0])[:2]
        name = f"{serial:08X}"
        pairs.append((attributes(name), shown(name, state, limit=(100, 50, 2), activation=activation, deactivation=deactivation)))
    s.card("Get Attributes with dates", *pairs, clock=100)


# ---- L4: Re-key by the book


def name_of(serial):
    return f"{serial:08X}"


def replace(s, name, old, new, *offset, clock):
    """A request with one Re-key, which succeeds."""
    s.card(name, (rekey(name_of(old), *offset), named(REKEY, name_of(new))), clock=clock)


def heir(item, activation=0, deactivation=0):
    """The body of a replacement of such a key as `dated` lays out: its material is that of the item at this position, and nothing was granted yet."""
    return body(100, 100, 4, fresh(item, 16), activation, deactivation)


def heirs_in(states):
    """The lines of the replacements of keys 1, 2, 3 and so on, in these states."""
    count = len(states)
    return b"".join(line(count + old, state, 2, replaced=old) for old, state in enumerate(states, 1))


def cards_of_rekey_with_dates(s):
    s.about(
        "L4: without Offset the dates are copied and the state is set from them at once, as L3 does for a Pre-Active key: the old key's state plays no",
        "part. The clock is 100. Old keys: Compromised with a date to come, Active, Deactivated by date, Deactivated with no activation date, Active with no",
        "date as a converted table may have it, Compromised past one date and past both, deactivation to come alone; then dates at the clock and one after.",
    )
    keys = [(4, 200), (2, 50, 200), (3, 40, 60), (3, 0, 60), (2,), (4, 50), (4, 50, 60), (1, 0, 200)]
    keys += [(1, 100), (1, 101), (2, 50, 100), (2, 50, 101)]
    began = [4, 2, 3, 3, 2, 4, 4, 1, 2, 1, 3, 2]
    first = [1, 2, 3, 1, 1, 2, 3, 1, 2, 1, 3, 2]
    dated_keys(s, 50, *keys)
    s.say("clock 100")
    for old in range(1, 5):
        replace(s, f"L4 Re-key with dates, {name_of(old)}", old, old + 12, clock=100)
    rest = range(5, 13)
    s.card("L4 Re-key with dates, the others", *[(rekey(name_of(old)), named(REKEY, name_of(old + 12))) for old in rest], clock=100)
    old_lines = b"".join(line(serial, state, 2, replacement=serial + 12) for serial, state in enumerate(began, 1))
    s.table("L4 lead and lines after Re-key with dates", 0, lead(24, latest=100) + old_lines + heirs_in(first))
    s.table("L4 old bodies after Re-key with dates", body_at(0), b"".join(dated(*key) for key in keys))
    items = [0, 0, 0, 0, *range(8)]
    s.table("L4 new bodies after Re-key with dates", body_at(12), b"".join(heir(item, *key[1:]) for item, key in zip(items, keys)))
    s.about("Such a replacement is used at once if it is Active, and cannot be activated again; one with a past deactivation date alone never starts.")
    s.fails("L4 Activate of a replacement that is Active already", activate(name_of(14)), ACTIVATE, WRONG, clock=100)
    s.fails("L4 Activate of a replacement that is Deactivated already", activate(name_of(15)), ACTIVATE, WRONG, clock=100)
    s.fails("L4 Activate of a replacement with a past deactivation date alone", activate(name_of(16)), ACTIVATE, WRONG, clock=100)
    s.card(
        "L4 replacements in use",
        (allocate(name_of(14), 60), named(ALLOCATE, name_of(14))),
        (attributes(name_of(14)), shown(name_of(14), 2, limit=(100, 40, 2), replaced=TWO, activation=50, deactivation=200)),
        (destroy(name_of(14)), failed(DESTROY, WRONG)),
        (get(name_of(15)), handed(name_of(15), fresh(0, 16))),
        (allocate(name_of(15), 1), failed(ALLOCATE, WRONG)),
        (destroy(name_of(15)), named(DESTROY, name_of(15))),
        (activate(name_of(17)), named(ACTIVATE, name_of(17))),
        option=CONTINUE,
        clock=100,
    )
    first[2], first[4] = 5, 2
    s.table("L4 lines after replacements were used", line_at(12), heirs_in(first))
    s.about("Later the dates act on it as on any key.")
    s.say("clock 200")
    s.fails("L4 replacements at clock 200", attributes(), GET_ATTRIBUTES, OBJECT_NOT_FOUND, clock=200)
    s.table("L4 lines of replacements at clock 200", line_at(12), heirs_in([2, 3, 5, 1, 2, 2, 3, 1, 2, 2, 3, 3]))


def cards_of_rekey_in_one_batch(s):
    s.about("L4: that of an Active key is Active at once, since Activate set its date; and it is Pre-Active as 01 has it where no date was set.")
    s.blank()
    s.card(
        "L4 Re-key of a key just activated, and of one that was not",
        (create(limit(100, 2)), created(ONE)),
        (activate(), named(ACTIVATE, ONE)),
        (rekey(), named(REKEY, TWO)),
        (attributes(), shown(TWO, 2, limit=(100, 100, 2), replaced=ONE, activation=1)),
        (allocate(None, 100), named(ALLOCATE, TWO)),
        (rekey(), named(REKEY, THREE)),
        (attributes(), shown(THREE, 2, limit=(100, 100, 2), replaced=TWO, activation=1)),
        (create(), created(FOUR)),
        (rekey(), named(REKEY, FIVE)),
        (attributes(), shown(FIVE, 1, replaced=FOUR)),
        (revoke(THREE, 1), named(REVOKE, THREE)),
        (rekey(THREE), named(REKEY, SIX)),
        (attributes(), shown(SIX, 3, limit=(100, 100, 2), replaced=THREE, activation=1, deactivation=1)),
    )
    s.about("L4: in the batch of its Create a date that has come acts on the replacement at once, and on the created key at the next accepted request.")
    s.blank()
    s.say("clock 10")
    s.card(
        "L4 Create with dates that have come and Re-key in one batch",
        (create(starts(10)), created(ONE)),
        (rekey(), named(REKEY, TWO)),
        (attributes(), shown(TWO, 2, replaced=ONE, activation=10)),
        (attributes(ONE), shown(ONE, 1, replacement=TWO, activation=10)),
        (create(starts(9), ends(10)), created(THREE)),
        (rekey(), named(REKEY, FOUR)),
        (attributes(), shown(FOUR, 3, replaced=THREE, activation=9, deactivation=10)),
        (create(ends(10)), created(FIVE)),
        (rekey(), named(REKEY, SIX)),
        (attributes(), shown(SIX, 1, replaced=FIVE, deactivation=10)),
        (create(starts(11)), created("00000007")),
        (rekey(), named(REKEY, "00000008")),
        (attributes(), shown("00000008", 1, replaced="00000007", activation=11)),
        clock=10,
    )
    linked = lambda *states: b"".join(
        line(serial, state, replaced=(serial - 1) * (1 - serial % 2), replacement=(serial + 1) * (serial % 2)) for serial, state in enumerate(states, 1)
    )
    s.table("L4 lines after Create and Re-key in one batch", line_at(0), linked(1, 2, 1, 3, 1, 1, 1, 1))
    s.fails("L4 the request after Create and Re-key", attributes(), GET_ATTRIBUTES, OBJECT_NOT_FOUND, clock=10)
    s.table("L4 lines at the request after Create and Re-key", line_at(0), linked(2, 2, 3, 3, 1, 1, 1, 1))


def cards_of_offset(s):
    s.about(
        "L4, Offset: activation is the clock, 100, plus Offset; deactivation moves by the same difference, later or earlier; a key without dates gets an",
        "activation date all the same. The state follows from the new dates. Offset is unsigned: from 80000000 hex on it is a long one.",
    )
    tries = [
        ("0, both dates", (2, 50, 200), 0, (100, 250), 2),
        ("1, both dates", (2, 50, 200), 1, (101, 251), 1),
        ("10 days", (2, 50), 864000, (864100,), 1),
        ("FFFFFFFF, both dates past", (3, 50, 60), 0xFFFFFFFF, (4294967395, 4294967405), 1),
        ("0, no dates", (1,), 0, (100,), 2),
        ("1, an Active key of no dates", (2,), 1, (101,), 1),
        ("0, dates that are the same", (3, 60, 60), 0, (100, 100), 3),
        ("1, dates that are the same", (3, 60, 60), 1, (101, 101), 1),
        ("10, Compromised, dates to come", (4, 500, 700), 10, (110, 310), 1),
        ("0, dates to come", (1, 500, 501), 0, (100, 101), 2),
        ("0, dates to come that are the same", (1, 500, 500), 0, (100, 100), 3),
        ("80000000, an activation date", (4, 70), 0x80000000, (2147483748,), 1),
        ("400, the same dates as before", (1, 500, 2**63 - 1), 400, (500, 2**63 - 1), 1),
        ("0, both dates past", (4, 50, 60), 0, (100, 110), 2),
    ]
    keys = [key for _, key, _, _, _ in tries]
    dated_keys(s, 50, *keys)
    s.say("clock 100")
    count = len(tries)
    for old, (name, _, seconds, _, _) in enumerate(tries, 1):
        given = PRINTED_OFFSET if seconds == 864000 else offset(seconds)
        replace(s, f"L4 Offset {name}", old, old + count, given, clock=100)
    old_lines = b"".join(line(old, key[0], 2, replacement=old + count) for old, key in enumerate(keys, 1))
    states = [state for _, _, _, _, state in tries]
    s.table("L4 lead and lines after Offsets", 0, lead(2 * count, latest=100) + old_lines + heirs_in(states))
    s.table("L4 old bodies after Offsets", body_at(0), b"".join(dated(*key) for key in keys))
    s.table("L4 new bodies after Offsets", body_at(count), b"".join(heir(0, *dates) for _, _, _, dates, _ in tries))
    first, same = name_of(count + 1), name_of(count + 7)
    s.card(
        "L4 replacements by Offset",
        (attributes(first), shown(first, 2, limit=(100, 100, 2), replaced=ONE, activation=100, deactivation=250)),
        (activate(first), failed(ACTIVATE, WRONG)),
        (activate(same), failed(ACTIVATE, WRONG)),
        (rekey(first, offset(5)), named(REKEY, name_of(2 * count + 1))),
        (attributes(), shown(name_of(2 * count + 1), 1, limit=(100, 100, 2), replaced=first, activation=105, deactivation=255)),
        option=CONTINUE,
        clock=100,
    )
    s.about("The moved dates act when they have come: at 101, at 10 days one second before and on time, and so for the longest Offset and its end.")
    for clock, states in [
        (101, [2, 2, 1, 1, 2, 2, 3, 3, 1, 3, 3, 1, 1, 2]),
        (864099, [3, 3, 1, 1, 2, 2, 3, 3, 3, 3, 3, 1, 2, 3]),
        (864100, [3, 3, 2, 1, 2, 2, 3, 3, 3, 3, 3, 1, 2, 3]),
        (4294967394, [3, 3, 2, 1, 2, 2, 3, 3, 3, 3, 3, 2, 2, 3]),
        (4294967395, [3, 3, 2, 2, 2, 2, 3, 3, 3, 3, 3, 2, 2, 3]),
        (4294967404, [3, 3, 2, 2, 2, 2, 3, 3, 3, 3, 3, 2, 2, 3]),
        (4294967405, [3, 3, 2, 3, 2, 2, 3, 3, 3, 3, 3, 2, 2, 3]),
    ]:
        s.say(f"clock {clock}")
        s.fails(f"L4 Offsets at clock {clock}", attributes(), GET_ATTRIBUTES, OBJECT_NOT_FOUND, clock=clock)
        lines = line(count + 1, states[0], 2, replaced=1, replacement=2 * count + 1) + heirs_in(states)[16:]
        s.table(f"L4 lines of replacements at clock {clock}", line_at(count), lines)


def cards_of_offset_and_the_clock(s):
    s.about("L4: Offset counts from the clock that counts: 40 is given, and 100 was seen.")
    keys = [(2, 50, 200), (2, 50, 200), (2, 50, 200)]
    dated_keys(s, 100, *keys)
    s.say("clock 40")
    replace(s, "L4 Offset 0 at clock 40 after 100", 1, 4, offset(0), clock=100)
    replace(s, "L4 Offset 5 at clock 40 after 100", 2, 5, offset(5), clock=100)
    s.say("clock 104")
    replace(s, "L4 Offset 1 at clock 104", 3, 6, offset(1), clock=104)
    s.table("L4 lines after Offsets and a clock that went back", line_at(3), heirs_in([2, 1, 1]))
    s.table("L4 bodies after Offsets and a clock that went back", body_at(3), heir(0, 100, 250) + heir(0, 105, 255) + heir(0, 105, 255))


def cards_of_offset_alone(s):
    s.about("L4: with Offset, a deactivation date without an activation date is Invalid Field; without Offset it is copied. A failed item changes nothing.")
    keys = [(1, 0, 200), (2, 0, 200), (3, 0, 60), (4, 0, 60)]
    dated_keys(s, 50, *keys)
    s.say("clock 100")
    for seconds in (0, 0xFFFFFFFF):
        s.fails(f"L4 Offset {seconds} and a deactivation date alone", rekey(ONE, offset(seconds)), REKEY, INVALID_FIELD, clock=100)
    pairs = [(rekey(name, offset(1)), failed(REKEY, INVALID_FIELD)) for name in (TWO, THREE, FOUR)]
    s.card("L4 Offset 1 and a deactivation date alone, other states", *pairs, option=CONTINUE, clock=100)
    s.table("L4 lead and lines after Offsets and a deactivation date alone", 0, lead(4, latest=100) + in_states(1, 2, 3, 4) + bytes(16))
    s.card("L4 a deactivation date alone without Offset", *[(rekey(name_of(n)), named(REKEY, name_of(n + 4))) for n in range(1, 5)], clock=100)
    s.table("L4 lines after a deactivation date alone without Offset", line_at(4), heirs_in([1, 1, 1, 1]))
    copies = b"".join(heir(item, *key[1:]) for item, key in enumerate(keys))
    s.table("L4 bodies after a deactivation date alone without Offset", body_at(0), b"".join(dated(*key) for key in keys) + copies)
    s.about("Such a failure empties the placeholder, as every failure does.")
    s.card(
        "L4 Offset and a deactivation date alone, by the placeholder",
        (create(ends(200)), created("00000009")),
        (rekey(None, offset(1)), failed(REKEY, INVALID_FIELD)),
        (rekey(), failed(REKEY, OBJECT_NOT_FOUND)),
        (create(), created("0000000A")),
        (rekey(None, offset(1)), named(REKEY, "0000000B")),
        (attributes(), shown("0000000B", 1, replaced="0000000A", activation=101)),
        option=CONTINUE,
        clock=100,
    )


def cards_of_offset_past_the_largest_date(s):
    most = 2**63 - 1
    s.about("L4: a sum past the largest Date-Time, 2^63 - 1, is Invalid Field; one that comes to it is not. The clock is ten seconds before it.")
    keys = [(2, 50), (2, 50), (3, 60, 65), (3, 60, 65), (1, most), (2, 50, most), (1,), (3, 60, 60)]
    dated_keys(s, 60, *keys)
    s.say(f"clock {most - 10}")
    clock = most - 10
    s.fails("L4 activation one past 2^63 - 1", rekey(ONE, offset(11)), REKEY, INVALID_FIELD, clock=clock)
    s.fails("L4 activation far past 2^63 - 1", rekey(ONE, offset(0xFFFFFFFF)), REKEY, INVALID_FIELD, clock=clock)
    replace(s, "L4 activation at 2^63 - 1", 2, 9, offset(10), clock=clock)
    s.fails("L4 deactivation alone one past 2^63 - 1", rekey(THREE, offset(6)), REKEY, INVALID_FIELD, clock=clock)
    s.fails("L4 both dates past 2^63 - 1", rekey(THREE, offset(11)), REKEY, INVALID_FIELD, clock=clock)
    replace(s, "L4 deactivation at 2^63 - 1", 4, 10, offset(5), clock=clock)
    replace(s, "L4 an activation date of 2^63 - 1 moved to the clock", 5, 11, offset(0), clock=clock)
    s.fails("L4 a deactivation date of 2^63 - 1 that would move on", rekey(SIX, offset(0)), REKEY, INVALID_FIELD, clock=clock)
    replace(s, "L4 a deactivation date of 2^63 - 1 without Offset", 6, 12, clock=clock)
    replace(s, "L4 both dates at 2^63 - 1", 8, 13, offset(10), clock=clock)
    old = [(1, 2, 0), (2, 2, 9), (3, 3, 0), (4, 3, 10), (5, 1, 11), (6, 2, 12), (7, 1, 0), (8, 3, 13)]
    new = [(9, 1, 2), (10, 1, 4), (11, 2, 5), (12, 2, 6), (13, 1, 8)]
    lines = b"".join(line(serial, state, 2, replacement=other) for serial, state, other in old)
    lines += b"".join(line(serial, state, 2, replaced=other) for serial, state, other in new)
    s.table("L4 lead and lines before the largest date", 0, lead(13, latest=clock) + lines)
    bodies = heir(0, most) + heir(0, most - 5, most) + heir(0, most - 10) + heir(0, 50, most) + heir(0, most, most)
    s.table("L4 new bodies before the largest date", body_at(8), bodies)
    s.about("At the largest clock Offset 0 is the only one.")
    s.say(f"clock {most}")
    s.fails("L4 Offset 1 at clock 2^63 - 1", rekey(ONE, offset(1)), REKEY, INVALID_FIELD, clock=most)
    replace(s, "L4 Offset 0 at clock 2^63 - 1", 1, 14, offset(0), clock=most)
    s.fails("L4 Offset 0 and a span of 5 at clock 2^63 - 1", rekey(THREE, offset(0)), REKEY, INVALID_FIELD, clock=most)
    s.card("L4 Offset 0 on a key without dates at clock 2^63 - 1", (rekey("00000007", offset(0)), named(REKEY, "0000000F")), clock=most)
    s.table("L4 lines at the largest date", line_at(13), line(14, 2, 2, replaced=1) + line(15, 2, 2, replaced=7) + bytes(16))
    s.table("L4 bodies at the largest date", body_at(13), heir(0, most) * 2)
    s.about("It need not be late for that: at clock 100 a key that lasts to the largest date can be moved to where it was and not a second on.")
    dated_keys(s, 50, (1, 200, most), (1, 200, most), (1, 1, most))
    s.say("clock 100")
    s.fails("L4 Offset 101 and an end at 2^63 - 1", rekey(ONE, offset(101)), REKEY, INVALID_FIELD, clock=100)
    replace(s, "L4 Offset 100 and an end at 2^63 - 1", 1, 4, offset(100), clock=100)
    replace(s, "L4 Offset 99 and an end at 2^63 - 1", 2, 5, offset(99), clock=100)
    s.fails("L4 the longest Offset and the longest span", rekey(THREE, offset(0xFFFFFFFF)), REKEY, INVALID_FIELD, clock=100)
    s.table("L4 bodies of keys that last to the largest date", body_at(3), heir(0, 200, most) + heir(0, 199, most - 1))
    s.about("The largest sums there are: the largest clock, the longest Offset, the longest span.")
    s.say(f"clock {most}")
    s.fails("L4 the largest sums", rekey(THREE, offset(0xFFFFFFFF)), REKEY, INVALID_FIELD, clock=most)


def cards_of_the_order_of_rekey(s):
    s.about(
        "L4, the order of reasons: Object Not Found, Object Destroyed, Permission Denied, Invalid Field by the dates, Server Limit Exceeded. A full table of",
        "live keys; keys 1 and 2 have a deactivation date alone, and 2 is replaced by 6; key 8 has both dates, key 9 none.",
    )
    full_table(s)
    s.put(LATEST_CLOCK, numbers(1))
    s.put(line_at(1), line(2, 2, replacement=6))
    s.put(line_at(5), line(6, 2, replaced=2))
    for place in (0, 1):
        s.put(body_at(place) + DEACTIVATION_IN, numbers(2**63 - 1))
    s.put(body_at(7) + ACTIVATION_IN, numbers(1, 2**63 - 1))
    given = offset(1)
    s.fails("L4 replaced, Offset and a deactivation date alone, table full", rekey(TWO, given), REKEY, PERMISSION_DENIED)
    s.fails("L4 Offset and a deactivation date alone, table full", rekey(ONE, given), REKEY, INVALID_FIELD)
    s.fails("L4 deactivation past 2^63 - 1, table full", rekey("00000008", given), REKEY, INVALID_FIELD)
    s.fails("L4 Offset that fits, table full", rekey("00000009", given), REKEY, SERVER_LIMIT_EXCEEDED)
    s.fails("L4 a deactivation date alone without Offset, table full", rekey(ONE), REKEY, SERVER_LIMIT_EXCEEDED)
    s.fails("L4 no key, Offset, table full", rekey("00000041", given), REKEY, OBJECT_NOT_FOUND)
    s.fails("L4 no identifier, Offset, table full", rekey(None, given), REKEY, OBJECT_NOT_FOUND)
    s.say(f"clock {2**63 - 1}")
    s.fails("L4 activation past 2^63 - 1, table full", rekey("00000009", given), REKEY, INVALID_FIELD, clock=2**63 - 1)
    s.table("L4 lead after the order of reasons", 0, lead(64, latest=2**63 - 1))
    s.about("The same where no serial is left: the last one was issued, and places are free. All is at fault with key 5: destroyed, replaced, its date alone.")
    s.blank()
    s.put(0, lead(0xFFFFFFFF)[:4])
    s.put(line_at(0), line(1, 2) + line(2, 2, replacement=3) + line(4, 2) + line(5, 5, replacement=6))
    for place in (0, 1, 3):
        s.put(body_at(place) + DEACTIVATION_IN, numbers(9))
    s.fails("L4 all at fault", rekey(FIVE, given), REKEY, OBJECT_DESTROYED)
    s.fails("L4 Offset and a deactivation date alone, no serial left", rekey(ONE, given), REKEY, INVALID_FIELD)
    s.fails("L4 replaced by a key that is gone, no serial left", rekey(TWO, given), REKEY, PERMISSION_DENIED)
    s.fails("L4 Offset that fits, no serial left", rekey(FOUR, given), REKEY, SERVER_LIMIT_EXCEEDED)
    s.about("On a destroyed and on a replaced key the Offset is not looked at, whether it fits or not.")
    dated_keys(s, 50, (5, 50), (6, 0, 60), (2, 50), (2, 50))
    s.put(line_at(2), line(3, 2, 2, replacement=4) + line(4, 2, 2, replaced=3))
    s.say("clock 100")
    s.fails("L4 Offset that fits, destroyed", rekey(ONE, given), REKEY, OBJECT_DESTROYED, clock=100)
    s.fails("L4 Offset and a deactivation date alone, destroyed", rekey(TWO, given), REKEY, OBJECT_DESTROYED, clock=100)
    s.fails("L4 Offset that fits, replaced", rekey(THREE, given), REKEY, PERMISSION_DENIED, clock=100)
    s.about("A destroyed place is taken over by a replacement with its state and dates, and nothing of the destroyed key stays.")
    full_table(s)
    s.put(line_at(9), line(10, 5, 2, bits=256))
    s.put(body_at(9), body(100, 50, 0x00FFFFFF, b"", 7, 8))
    s.card("L4 Offset 0 into a destroyed place", (rekey(ONE, offset(0)), named(REKEY, "00000041")))
    s.table("L4 line of place 9, Active at once", line_at(9), line(65, 2, replaced=1))
    s.table("L4 body of place 9, taken over", body_at(9), body(0, 0, 0, fresh(0, 16), 1))


def cards_of_offset_shapes(s):
    s.about("L4: Offset is an Interval behind the identifier, once, and in Re-key alone; any other shape is Invalid Field, also for no key and a destroyed one.")
    dated_keys(s, 50, (2, 50), (5, 50))
    s.say("clock 100")
    given, first = offset(1), identifier(ONE)
    wrong = [
        ("as Integer", [first, integer(OFFSET, 1)]),
        ("as Enumeration", [first, enumeration(OFFSET, 1)]),
        ("as Long Integer", [first, long_integer(OFFSET, 1)]),
        ("as Date-Time", [first, date_time(OFFSET, 1)]),
        ("as Date-Time Extended", [first, date_time_extended(OFFSET, 1)]),
        ("as Byte String", [first, byte_string(OFFSET, bytes(4))]),
        ("in a structure", [first, structure(OFFSET, given)]),
        ("before the identifier", [given, first]),
        ("given twice", [first, given, given]),
        ("and something more", [first, given, integer(OTHER, 1)]),
        ("behind something", [first, integer(OTHER, 1), given]),
        ("of rotation, 42016C", [first, interval(0x42016C, 1)]),
        ("as Integer alone", [integer(OFFSET, 1)]),
        ("with an identifier as Integer", [integer(UNIQUE_IDENTIFIER, 1), given]),
    ]
    for name, payload in wrong:
        s.fails(f"L4 Offset {name}", ask(REKEY, *payload), REKEY, INVALID_FIELD, clock=100)
    for what, key in [("no key", THREE), ("a destroyed key", TWO)]:
        asked = [(rekey(key, integer(OFFSET, 1)), failed(REKEY, INVALID_FIELD)), (rekey(key, given, given), failed(REKEY, INVALID_FIELD))]
        s.card(f"L4 Offset of wrong shape for {what}", *asked, option=CONTINUE, clock=100)
    s.refused("L4 Offset of 8 bytes is malformed", request(rekey(ONE, ttlv(OFFSET, 0x0A, bytes(8)))), 5)
    others = [
        (create(given), CREATE),
        (ask(CREATE, symmetric_key(), wanted(), given), CREATE),
        (get(ONE, given), GET),
        (attributes(ONE, given), GET_ATTRIBUTES),
        (ask(ALLOCATE, first, long_integer(USAGE_LIMITS_COUNT, 1), given), ALLOCATE),
        (activate(ONE, given), ACTIVATE),
        (ask(REVOKE, first, reason_code(1), given), REVOKE),
        (destroy(ONE, given), DESTROY),
    ]
    s.card("L4 Offset in other operations", *[(asked, failed(operation, INVALID_FIELD)) for asked, operation in others], option=CONTINUE, clock=100)
    s.table("L4 lead and lines after Offsets of wrong shape", 0, lead(2, latest=100) + in_states(2, 5) + bytes(16))
    s.about("Without identifier, by the placeholder, it stands alone; and an ID is echoed.")
    s.card(
        "L4 Offset by the placeholder",
        (create(), created(THREE)),
        (rekey(None, offset(0), id=b"again"), named(REKEY, FOUR, id=b"again")),
        (attributes(), shown(FOUR, 2, replaced=THREE, activation=100)),
        (rekey(None, PRINTED_OFFSET), named(REKEY, FIVE)),
        (attributes(), shown(FIVE, 1, replaced=FOUR, activation=864100)),
        clock=100,
    )


# ---- L5: text in the makers' languages

# RFC 3629, section 4: the first and the last character of each form that it lists
CHARACTERS = (
    "00 7F  C280 DFBF  E0A080 E0BFBF  E18080 ECBFBF  ED8080 ED9FBF  EE8080 EFBFBF"
    "  F0908080 F0BFBFBF  F1808080 F3BFBFBF  F4808080 F48FBFBF"
).split()
# what no character is, each kind at its edges
NO_CHARACTERS = {
    "a tail alone": "80 BF",
    "overlong in two bytes": "C080 C1BF",
    "overlong in three bytes": "E08080 E09FBF",
    "overlong in four bytes": "F0808080 F08FBFBF",
    "a surrogate": "EDA080 EDAFBF EDB080 EDBFBF EDA080EDB080",
    "above 10FFFF": "F4908080 F4BFBFBF",
    "above 10FFFF by its first byte": "F5808080 F7BFBFBF F888808080 FC8480808080 FE FF",
    "a tail missing": "C241 C27F C2C0 C2C280 E2417F E28241 E282C0 F09F9841 F09F98C0 F09F4180",
}
# characters without their last bytes, which nothing follows
CUT_CHARACTERS = "C2 DF E0 E0A0 E282 ED9F EF F0 F090 F09F98 F48F F48FBF".split()
# words for a key, and letters of four bytes
IN_OTHER_LETTERS = {
    "with an accent": "clé",
    "in Greek": "κλειδί",
    "in Cyrillic, eight bytes": "ключ",
    "in Chinese": "鑰匙",
    "of a smiley": "🙂",
    "of two smileys, eight bytes": "🙂🙂",
}


def cards_of_characters(s):
    s.about(
        "L5: Text Strings take every UTF-8 sequence of RFC 3629; an identifier in other letters is Object Not Found. The first and the last character of each",
        "form, alone and with digits to make eight bytes; controls, NUL and DEL are text, and so are noncharacters. Key 1 is there to be activated.",
    )
    key_to_activate(s)
    for digits in CHARACTERS:
        character = unhex(digits)
        eight = character + b"0" * (8 - len(character))
        pairs = [(activate(letters), failed(ACTIVATE, OBJECT_NOT_FOUND)) for letters in (character, eight, b"0" * 8 + character)]
        s.card(f"L5 identifier {digits}", *pairs, option=CONTINUE)
    every = b"".join(unhex(digits) for digits in CHARACTERS)
    s.fails("L5 identifier of all of them", activate(every), ACTIVATE, OBJECT_NOT_FOUND)
    s.fails("L5 all of them in the payload of Ping", ask(0x3B, text(OTHER, every)), 0x3B, NOT_SUPPORTED)
    for name, letters in [
        ("a control character", "0000000\x1f"),
        ("NUL", "0000000\0"),
        ("DEL", "0000000\x7f"),
        ("a line feed behind it", ONE + "\n"),
        ("an escape before it", "\x1b" + ONE),
        ("a byte order mark before it", "\ufeff" + ONE),
        ("FFFE", "\ufffe"),
        ("10FFFE", "\U0010fffe"),
    ]:
        s.fails(f"L5 identifier with {name}", activate(letters), ACTIVATE, OBJECT_NOT_FOUND)
    s.about("L5: the empty text is text, and a Text String whose length was counted with its padding is one, too: zero bytes are text.")
    s.fails("L5 identifier of no bytes", activate(""), ACTIVATE, OBJECT_NOT_FOUND)
    s.fails("L5 identifier 00000001 and one zero byte", activate(ONE + "\0"), ACTIVATE, OBJECT_NOT_FOUND)
    padded = activate(ONE + 8 * "\0")
    assert padded[-24:] == unhex("42009407 00000010 30303030 30303031 00000000 00000000")
    s.fails("L5 identifier 00000001 with its length counted to 16", padded, ACTIVATE, OBJECT_NOT_FOUND)
    s.fails("L5 identifier of eight zero bytes", activate(8 * "\0"), ACTIVATE, OBJECT_NOT_FOUND)
    s.table("L5 line after identifiers at the edges", line_at(0), line(1, 1))
    s.card("L5 identifier 00000001 as before", (activate(ONE), named(ACTIVATE, ONE)))


def cards_of_other_letters(s):
    s.about("L5: an identifier in other letters is Object Not Found, under Stop and under Continue, for every operation.")
    for name, letters in IN_OTHER_LETTERS.items():
        assert len(letters.encode()) == 8 or "eight" not in name
        key_to_activate(s)
        lost = (activate(letters), failed(ACTIVATE, OBJECT_NOT_FOUND))
        s.card(f"L5 identifier {name}, Stop", lost, (activate(ONE), None), option=STOP)
        s.card(f"L5 identifier {name}, no option", lost, (activate(ONE), None))
        s.card(f"L5 identifier {name}, Continue", lost, (activate(ONE), named(ACTIVATE, ONE)), option=CONTINUE)
    s.blank()
    letters = IN_OTHER_LETTERS["in Cyrillic, eight bytes"]
    asked = [
        (REKEY, rekey(letters)),
        (REKEY, rekey(letters, offset(1))),
        (GET, get(letters)),
        (GET_ATTRIBUTES, attributes(letters)),
        (ALLOCATE, allocate(letters, 1)),
        (ACTIVATE, activate(letters)),
        (REVOKE, revoke(letters, 1)),
        (DESTROY, destroy(letters)),
    ]
    pairs = [(item, failed(operation, OBJECT_NOT_FOUND)) for operation, item in asked]
    s.card("L5 every operation on an identifier in Cyrillic", (create(), created(ONE)), *pairs, option=CONTINUE)
    s.card(
        "L5 an identifier in Cyrillic empties the placeholder",
        (create(), created(TWO)),
        (activate(letters), failed(ACTIVATE, OBJECT_NOT_FOUND)),
        (activate(), failed(ACTIVATE, OBJECT_NOT_FOUND)),
        option=CONTINUE,
    )
    s.table("L5 lead and lines after identifiers in Cyrillic", 0, lead(2) + line(1, 1) + line(2, 1) + bytes(16))
    s.about("L5: letters and digits that look like others, or that would be hex digits but for a bit, are others. Keys 0000000A and C1C1C1C1 stand.")
    s.blank()
    s.put(0, lead(0xC1C1C1C1)[:4])
    s.key(0, line(10, 2), body())
    s.key(1, line(0xC1C1C1C1, 2), body())
    for name, letters in [
        ("0000000A with a Cyrillic A", "0000000\u0410"),
        ("000000A with a Cyrillic A, eight bytes", "000000\u0410"),
        ("0000000A with an A in full width", "0000000\uff21"),
        ("0000000A in full width", "\uff10" * 7 + "\uff21"),
        ("0000000A and a mark over the A", "0000000A\u0301"),
        ("C3B1 four times, C1C1C1C1 but for the highest bits", "ñ" * 4),
    ]:
        s.fails(f"L5 identifier {name}", attributes(letters), GET_ATTRIBUTES, OBJECT_NOT_FOUND)
    s.card("L5 identifier 0000000A itself", (attributes("0000000A"), shown("0000000A", 2)))
    s.card("L5 identifier C1C1C1C1 itself", (attributes("C1C1C1C1"), shown("C1C1C1C1", 2)))


def cards_of_no_text(s):
    s.about(
        "L5: overlong forms, surrogates and values above 10FFFF are malformed, and so is whatever else is no UTF-8: refusal 5, as an identifier and in the",
        "payload of an unsupported operation.",
    )
    key_to_activate(s)
    for name, sequences in NO_CHARACTERS.items():
        for digits in sequences.split():
            s.refused(f"L5 {name}, {digits}", request(activate(unhex(digits))), 5)
        s.refused(f"L5 {name}, {digits} in the payload of Ping", request(ask(0x3B, text(OTHER, b"key " + unhex(digits) + b" key"))), 5)
    s.about("L5: a character cut by the item's length is malformed: what follows, zeros or not, does not belong to the text.")
    for digits in CUT_CHARACTERS:
        octets = unhex(digits)
        s.refused(f"L5 cut, {digits} and zeros behind it", request(activate(octets)), 5)
        s.refused(f"L5 cut, {digits} at the end of eight bytes", request(activate(b"0" * (8 - len(octets)) + octets)), 5)
    for digits, length in [("C280", 1), ("E282AC", 1), ("E282AC", 2), ("F09F9982", 3)]:
        cut = text(UNIQUE_IDENTIFIER, unhex(digits))
        shorter = cut[:7] + bytes([length]) + cut[8:]
        s.refused(f"L5 cut, {digits} after {length}, the rest in the padding", request(ask(ACTIVATE, shorter)), 5)
    two = [text(OTHER, b"0000000\xc2"), text(OTHER, b"\x80")]
    s.refused("L5 cut, C2 in one text and 80 in the next", request(ask(0x3B, *two)), 5)
    s.table("L5 lead and line after what is no text", 0, lead(1, latest=0) + line(1, 1))


def cards_of_texts_elsewhere(s):
    s.about("L5: text anywhere in a request. Where it is UTF-8 the answer is what it was for other text; where not, nothing of the request is carried out.")
    key_to_activate(s)
    good, bad = "clé", b"cl\xe9"
    deep = lambda letters: structure(OTHER, structure(OTHER, structure(OTHER, structure(OTHER, text(OTHER, letters)))))
    worn = lambda letters: structure(REVOCATION_REASON, enumeration(REVOCATION_REASON_CODE, 1), text(REVOCATION_MESSAGE, letters))
    for name, operation, reason, payload in [
        ("in the payload of Ping", 0x3B, NOT_SUPPORTED, lambda letters: [text(OTHER, letters)]),
        ("at depth 8", 0x3B, NOT_SUPPORTED, lambda letters: [deep(letters)]),
        ("as Name", ACTIVATE, INVALID_FIELD, lambda letters: [identifier(ONE), called(letters)]),
        ("as Revocation Message", REVOKE, INVALID_FIELD, lambda letters: [identifier(ONE), worn(letters)]),
        ("behind an identifier", ACTIVATE, INVALID_FIELD, lambda letters: [identifier(ONE), identifier(letters)]),
    ]:
        s.fails(f"L5 text {name}", ask(operation, *payload(good)), operation, reason)
        s.refused(f"L5 no text {name}", request(ask(operation, *payload(bad))), 5)
    id_as_text = lambda letters: structure(
        BATCH_ITEM, enumeration(OPERATION, ACTIVATE), text(UNIQUE_BATCH_ITEM_ID, letters), structure(REQUEST_PAYLOAD, identifier(ONE))
    )
    s.refused("L5 text as ID", request(id_as_text(good)), 6)
    s.refused("L5 no text as ID", request(id_as_text(bad)), 5)
    s.refused("L5 text as message", text(REQUEST_MESSAGE, good), 6)
    s.refused("L5 no text as message", text(REQUEST_MESSAGE, bad), 5)
    s.refused("L5 no text in the second item", request(activate(ONE), ask(0x3B, text(OTHER, bad)), option=CONTINUE), 5)
    s.table("L5 line after no text in the second item", line_at(0), line(1, 1))
    s.about("L5: of Byte Strings nothing is asked.")
    s.fails("L5 C1BF as Byte String in the payload of Ping", ask(0x3B, byte_string(OTHER, b"\xc1\xbf")), 0x3B, NOT_SUPPORTED)
    s.card("L5 C1BF as ID", (activate(ONE, id=b"\xc1\xbf"), named(ACTIVATE, ONE, id=b"\xc1\xbf")))
    s.about("L5: a longer text, of two bytes a letter; then with its last letter cut.")
    long = ("é" * 132).encode()
    s.fails("L5 text of 264 bytes", ask(0x3B, text(OTHER, long)), 0x3B, NOT_SUPPORTED)
    s.refused("L5 no text, cut after 263 bytes", request(ask(0x3B, text(OTHER, long[:-1]))), 5)


# ---- L6: names and Locate

LONG = "station 12, row 3, step no. 0471"  # 32 bytes
# names that are allowed, each with how it is called in a card
GOOD_NAMES = {
    "of one byte": "p",
    "of 8 bytes": "pump 001",
    "of 31 bytes": LONG[:31],
    "of 32 bytes": LONG,
    "of 32 bytes in 16 letters": "é" * 16,
    "of 32 bytes in 8 letters": "🙂" * 8,
    "with a zero byte inside": "pump\x001",
    "that ends with a zero byte": "pump\0",
    "of one zero byte": "\0",
    "of 32 zero bytes": "\0" * 32,
    "that looks like an identifier": ONE,
}


def located(name, letters, *rest, **options):
    """Create, Locate and Get Attributes of one name, in one batch."""
    return [(create(*rest, called(letters)), created(name)), (locate(letters), found(name)), (attributes(), shown(name, 1, letters=letters, **options))]


def cards_of_names(s):
    s.about("L6: Create takes a Name as last attribute, Get Attributes shows it last. The Name is the one worked out beside the papers.")
    s.blank()
    s.card("L6 Create with the name pump", (create(PRINTED_NAME), created(ONE)))
    s.table("L6 line of the key called pump", line_at(0), line(1, 1))
    s.table("L6 body of the key called pump", body_at(0), body(0, 0, 4, fresh(0, 16), letters="pump"))
    stored_name = unhex("04000000 00000000 70756D70") + bytes(28)
    s.table("L6 name field of the key called pump", body_at(0) + NAME_IN, stored_name)
    answer = shown(ONE, 1, letters="pump")
    assert answer.endswith(PRINTED_NAME)
    s.card("L6 Get Attributes of the key called pump", (attributes(ONE), answer))
    s.card("L6 Create without a name beside it", (create(), created(TWO)), (attributes(), shown(TWO, 1)))
    s.about("L6: 1 to 32 bytes of text, in whatever letters, and with zero bytes, which are text by L5.")
    s.blank()
    for serial, (what, letters) in enumerate(GOOD_NAMES.items(), 1):
        s.card(f"L6 name {what}", *located(name_of(serial), letters))
    bodies = b"".join(body(0, 0, 4, fresh(0, 16), letters=letters) for letters in GOOD_NAMES.values())
    s.table("L6 bodies of keys with names", body_at(0), bodies)
    s.about("L6: behind the limit and the dates, as far as they are there.")
    s.blank()
    given = [([limit(9, 1)], dict(limit=(9, 9, 1))), ([starts(5)], dict(activation=5)), ([ends(6)], dict(deactivation=6))]
    given += [([limit(9, 1), starts(5), ends(6)], dict(limit=(9, 9, 1), activation=5, deactivation=6))]
    for serial, (more, options) in enumerate(given, 1):
        s.card(f"L6 name behind {len(more)} of limit and dates, {serial}", *located(name_of(serial), f"name {serial}", *more, **options))
    s.about("L6: a name stays with its key through every change of state, and a destroyed key keeps it.")
    s.blank()
    s.card(
        "L6 name through a life",
        (create(limit(9, 1), called("pump")), created(ONE)),
        (activate(), named(ACTIVATE, ONE)),
        (allocate(None, 4), named(ALLOCATE, ONE)),
        (get(), handed(ONE, fresh(0, 16))),
        (revoke(None, 5), named(REVOKE, ONE)),
        (destroy(), named(DESTROY, ONE)),
        (attributes(), shown(ONE, 5, limit=(9, 5, 1), activation=1, deactivation=1, letters="pump")),
        (revoke(None, 2), named(REVOKE, ONE)),
        (attributes(), shown(ONE, 6, limit=(9, 5, 1), activation=1, deactivation=1, letters="pump")),
    )
    s.table("L6 body after a life with a name", body_at(0), body(9, 5, 4, b"", 1, 1, "pump"))


def cards_of_wrong_names(s):
    s.about("L6: what is no such name, or does not stand last and once, is Invalid Field: in Create, and in Locate.")
    s.blank()
    s.card("L6 wrong names, the key that has a right one", (create(called("pump")), created(ONE)))
    value, kind = text(NAME_VALUE, "tap"), enumeration(NAME_TYPE, 1)
    name = lambda *fields: structure(NAME, *fields)
    wrong = {
        "of no bytes": [called("")],
        "of 33 bytes": [called(33 * "x")],
        "of type 2, URI": [called("tap", 2)],
        "without a type": [name(value)],
        "with its fields exchanged": [name(kind, value)],
        "and another": [called("tap"), called("valve")],
        "and a deactivation date behind it": [called("tap"), ends(9)],
    }
    for what, fields in wrong.items():
        s.fails(f"L6 Create with a name {what}", create(*fields), CREATE, INVALID_FIELD)
    others = [
        [called(16 * "é" + "x")],
        [called(40 * "x")],
        [called(257 * "x")],
        [called("tap", 0)],
        [called("tap", 0xFFFFFFFF)],
        [name(kind)],
        [name()],
        [name(byte_string(NAME_VALUE, b"tap"), kind)],
        [name(value, integer(NAME_TYPE, 1))],
        [name(value, kind, value)],
        [text(NAME, "tap")],
        [called("tap"), called("tap")],
        [called("tap"), enumeration(STATE, 1)],
    ]
    s.about(
        "The same for 33 bytes in 17 letters, 40 and 257 bytes, types 0 and FFFFFFFF, no value, no fields, other item types, a third field, no structure,",
        "the same name twice, and a State behind it.",
    )
    s.card("L6 Create with other names that are not allowed", *[(create(*fields), failed(CREATE, INVALID_FIELD)) for fields in others], option=CONTINUE)
    located_so = lambda fields: (ask(LOCATE, structure(ATTRIBUTES, *fields)), failed(LOCATE, INVALID_FIELD))
    s.card("L6 Locate with names that are not allowed", *[located_so(fields) for fields in wrong.values()], option=CONTINUE)
    s.card("L6 Locate with other names that are not allowed", *[located_so(fields) for fields in others], option=CONTINUE)
    aes, bits, mask = enumeration(CRYPTOGRAPHIC_ALGORITHM, 3), integer(CRYPTOGRAPHIC_LENGTH, 128), integer(CRYPTOGRAPHIC_USAGE_MASK, 4)
    elsewhere = [
        [symmetric_key(), wanted(called("tap"), limit(9, 1))],
        [symmetric_key(), structure(ATTRIBUTES, aes, bits, called("tap"), mask)],
        [symmetric_key(), wanted(), called("tap")],
        [symmetric_key(), called("tap"), wanted()],
    ]
    pairs = [(ask(CREATE, *payload), failed(CREATE, INVALID_FIELD)) for payload in elsewhere]
    s.card("L6 Create with a name before the limit, before the mask, behind the attributes and before them", *pairs, option=CONTINUE)
    s.about("L6: Locate takes Attributes with the Name alone.")
    pump = structure(ATTRIBUTES, called("pump"))
    for what, payload in [
        ("nothing", []),
        ("empty attributes", [structure(ATTRIBUTES)]),
        ("a name without attributes", [called("pump")]),
        ("an identifier", [identifier(ONE)]),
        ("an identifier before the attributes", [identifier(ONE), pump]),
        ("an identifier behind the attributes", [pump, identifier(ONE)]),
        ("Maximum Items", [integer(MAXIMUM_ITEMS, 1), pump]),
        ("a Storage Status Mask", [integer(STORAGE_STATUS_MASK, 3), pump]),
        ("another attribute before the name", [structure(ATTRIBUTES, enumeration(STATE, 1), called("pump"))]),
        ("another attribute alone", [structure(ATTRIBUTES, enumeration(STATE, 1))]),
        ("attributes twice", [pump, pump]),
        ("attributes as Byte String", [byte_string(ATTRIBUTES, called("pump"))]),
    ]:
        s.fails(f"L6 Locate with {what}", ask(LOCATE, *payload), LOCATE, INVALID_FIELD)
    s.about("L6: a Name in the payload of any other operation is Invalid Field, too.")
    others = [
        (rekey(ONE, called("tap")), REKEY),
        (get(ONE, called("pump")), GET),
        (attributes(ONE, called("pump")), GET_ATTRIBUTES),
        (activate(ONE, called("pump")), ACTIVATE),
        (ask(DESTROY, called("pump")), DESTROY),
    ]
    s.card("L6 a name in other operations", *[(asked, failed(operation, INVALID_FIELD)) for asked, operation in others], option=CONTINUE)
    s.about("L6: a name that is no text makes the request malformed, as any text does.")
    for digits in ["C1BF", "EDA080", "F4908080", "C2"]:
        s.refused(f"L6 Locate with the name {digits}", request(locate(unhex(digits))), 5)
    s.refused("L6 Create with the name C1BF", request(create(called(unhex("C1BF")))), 5)
    s.table("L6 lead and lines after wrong names", 0, lead(1) + line(1, 1) + bytes(16))


def cards_of_taken_names(s):
    s.about("L6: a name that any record in the table has, destroyed ones included, fails with Non Unique Name Attribute.")
    s.blank()
    taken = (create(called("pump")), failed(CREATE, NON_UNIQUE_NAME))
    s.card("L6 taken name, the first key", (create(called("pump")), created(ONE)))
    s.fails("L6 name of a key", create(called("pump")), CREATE, NON_UNIQUE_NAME)
    s.card("L6 name of a key, Stop", taken, (create(), None))
    s.card("L6 name of a key, Continue", taken, (activate(), failed(ACTIVATE, OBJECT_NOT_FOUND)), (create(), created(TWO)), option=CONTINUE)
    s.card("L6 name of a key that is destroyed", (destroy(ONE), named(DESTROY, ONE)), taken)
    s.fails("L6 name of a destroyed key", create(called("pump")), CREATE, NON_UNIQUE_NAME)
    s.card(
        "L6 name of a key of the same batch",
        (create(called("tap")), created(THREE)),
        (create(called("tap")), failed(CREATE, NON_UNIQUE_NAME)),
        (destroy(THREE), named(DESTROY, THREE)),
        (create(called("tap")), failed(CREATE, NON_UNIQUE_NAME)),
        option=CONTINUE,
    )
    s.table("L6 lead and lines after names were taken", 0, lead(3) + line(1, 5) + line(2, 1) + line(3, 5) + bytes(16))
    s.about("L6: tested after Invalid Field, and before Server Limit Exceeded: 64 live keys, the last of them called pump; then the last serial.")
    full_table(s)
    s.put(body_at(63) + NAME_IN, name_field("pump"))
    s.fails("L6 64 live keys, name taken", create(called("pump")), CREATE, NON_UNIQUE_NAME)
    s.fails("L6 64 live keys, name not taken", create(called("tap")), CREATE, SERVER_LIMIT_EXCEEDED)
    s.fails("L6 64 live keys, name taken, length 129", create(called("pump"), bits=129), CREATE, INVALID_FIELD)
    s.fails("L6 64 live keys, name taken, activation 0", create(starts(0), called("pump")), CREATE, INVALID_FIELD)
    s.fails("L6 64 live keys, name taken, of type 2", create(called("pump", 2)), CREATE, INVALID_FIELD)
    s.put(0, lead(0xFFFFFFFF)[:4])
    s.put(line_at(0), bytes(16))
    s.fails("L6 last serial FFFFFFFF, name taken", create(called("pump")), CREATE, NON_UNIQUE_NAME)
    s.fails("L6 last serial FFFFFFFF, name not taken", create(called("tap")), CREATE, SERVER_LIMIT_EXCEEDED)


# names that are like "pump 001, left": with zero bytes or a blank behind it or before it, without its last letter, its first eight bytes, the
# same in those alone, with another last letter, a capital letter, another byte in the middle
PUMP = "pump 001, left"
ALIKE = [PUMP + "\0", PUMP + "\0" * 18, PUMP + " ", " " + PUMP, PUMP[:-1], PUMP[:8]]
ALIKE += ["pump 001; left", PUMP[:-1] + "s", "P" + PUMP[1:], PUMP.replace("0", "1")]


def cards_of_names_alike(s):
    s.about("L6: names are compared byte for byte, over their whole length: what is nearly a name is another. None of them is found, then each is given.")
    s.blank()
    s.card("L6 alike, the first key", (create(called(PUMP)), created(ONE)))
    s.card("L6 alike, none is found", *[(locate(letters), found_none()) for letters in ALIKE])
    s.card("L6 alike, each is given", *[(create(called(letters)), created(name_of(serial))) for serial, letters in enumerate(ALIKE, 2)])
    s.card("L6 alike, each is found", *[(locate(letters), found(name_of(serial))) for serial, letters in enumerate([PUMP, *ALIKE], 1)])
    again = [(create(called(letters)), failed(CREATE, NON_UNIQUE_NAME)) for letters in [PUMP, *ALIKE]]
    s.card("L6 alike, each is taken", *again, option=CONTINUE)
    s.about("L6: a and a with a zero byte, in the other order; 32 bytes that differ in the last; letters that look or count as the same elsewhere.")
    s.blank()
    names = ["a\0", "a", LONG, LONG[:31] + "2", LONG[:31], "é", "e\u0301", "É", "А", "A", "ß", "ss", "ﬀ", "ff"]
    given = [(create(called(letters)), created(name_of(serial))) for serial, letters in enumerate(names, 1)]
    s.card("L6 alike, given in one batch", given[0], (locate("a"), found_none()), *given[1:])
    s.card("L6 alike, found in one batch", *[(locate(letters), found(name_of(serial))) for serial, letters in enumerate(names, 1)])


def cards_of_locate(s):
    s.about("L6: Locate answers the one identifier or an empty payload, and sets the placeholder or empties it. Keys: pump, destroyed tap, one without a name.")
    s.blank()
    s.card("L6 Locate on a blank table", (locate("pump"), found_none()))
    assert response(found_none()).endswith(unhex("42007F05 00000004 00000000 00000000 42007C01 00000000"))
    s.put(0, lead(3)[:4])
    s.key(0, line(1, 1, 2), body(100, 100, 4, material(1), letters="pump"))
    s.key(1, line(2, 5, 2), body(100, 50, 4, letters="tap"))
    s.key(2, line(3, 1), body(0, 0, 4, material(3)))
    before = lead(3) + line(1, 1, 2) + line(2, 5, 2) + line(3, 1) + bytes(16)
    pump, tap = shown(ONE, 1, limit=(100, 100, 2), letters="pump"), shown(TWO, 5, limit=(100, 50, 2), letters="tap")
    s.card("L6 Locate of pump", (locate("pump"), found(ONE)))
    s.card("L6 Locate of tap, destroyed", (locate("tap"), found(TWO)))
    s.card("L6 Locate of valve, none", (locate("valve"), found_none()))
    s.card("L6 Locate with an ID", (locate("pump", id=b"one"), found(ONE, id=b"one")), (locate("valve", id=b"two"), found_none(id=b"two")))
    s.card("L6 Locate of pump, then without identifier", (locate("pump"), found(ONE)), (attributes(), pump), (get(), handed(ONE, material(1))))
    s.card(
        "L6 Locate of tap, then without identifier",
        (locate("tap"), found(TWO)),
        (attributes(), tap),
        (get(), failed(GET, OBJECT_DESTROYED)),
        (attributes(), failed(GET_ATTRIBUTES, OBJECT_NOT_FOUND)),
        option=CONTINUE,
    )
    s.card("L6 Locate of valve, then without identifier", (locate("valve"), found_none()), (attributes(), failed(GET_ATTRIBUTES, OBJECT_NOT_FOUND)))
    s.card(
        "L6 Locate sets the placeholder anew, and empties it",
        (locate("tap"), found(TWO)),
        (locate("pump"), found(ONE)),
        (attributes(), pump),
        (locate("valve"), found_none()),
        (attributes(), failed(GET_ATTRIBUTES, OBJECT_NOT_FOUND)),
        (locate("tap"), found(TWO)),
        (attributes(), tap),
        option=CONTINUE,
    )
    s.card("L6 Locate of none under Stop", (locate("valve"), found_none()), (locate("pump"), found(ONE)), (attributes(), pump), option=STOP)
    s.card(
        "L6 Locate that fails empties the placeholder",
        (locate("pump"), found(ONE)),
        (ask(LOCATE), failed(LOCATE, INVALID_FIELD)),
        (attributes(), failed(GET_ATTRIBUTES, OBJECT_NOT_FOUND)),
        option=CONTINUE,
    )
    s.table("L6 lead and lines after Locate, as they were", 0, before)
    s.card(
        "L6 Locate over the placeholder of a Create",
        (create(), created(FOUR)),
        (locate("pump"), found(ONE)),
        (activate(), named(ACTIVATE, ONE)),
        (allocate(None, 60), named(ALLOCATE, ONE)),
        (create(), created(FIVE)),
        (locate("valve"), found_none()),
        (activate(), failed(ACTIVATE, OBJECT_NOT_FOUND)),
        option=CONTINUE,
    )
    s.card(
        "L6 Locate, then Revoke and Destroy without identifier",
        (locate("pump"), found(ONE)),
        (revoke(None, 1), named(REVOKE, ONE)),
        (locate("pump"), found(ONE)),
        (destroy(), named(DESTROY, ONE)),
        (locate("pump"), found(ONE)),
        (attributes(), shown(ONE, 5, limit=(100, 40, 2), activation=1, deactivation=1, letters="pump")),
    )
    s.card(
        "L6 Locate in the batch of its Create",
        (create(called("valve")), created(SIX)),
        (create(), created(name_of(7))),
        (locate("valve"), found(SIX)),
        (activate(), named(ACTIVATE, SIX)),
    )
    s.about("L6: Locate finds the key at the last place of a full table, a destroyed one here, as well as that at the first.")
    full_table(s)
    s.put(line_at(63), line(64, 6))
    s.put(body_at(63) + NAME_IN, name_field("last"))
    s.put(body_at(0) + NAME_IN, name_field("first"))
    s.card("L6 Locate at both ends of a full table", (locate("last"), found("00000040")), (locate("first"), found(ONE)), (locate("none"), found_none()))
    s.about("L6: an accepted request with a Locate alone stores the clock, and what is due is done before it.")
    dated_keys(s, 50, (1, 100))
    s.put(body_at(0) + NAME_IN, name_field("pump"))
    s.say("clock 100")
    answer = shown(ONE, 2, limit=(100, 50, 2), activation=100, letters="pump")
    s.card("L6 Locate at clock 100", (locate("pump"), found(ONE)), (attributes(), answer), clock=100)
    s.table("L6 lead and line after Locate at clock 100", 0, lead(1, latest=100) + in_states(2))


def cards_of_moved_names(s):
    s.about("L6: Re-key moves the name from the old key to the new.")
    s.blank()
    s.card("L6 Re-key moves a name, Create", (create(limit(9, 1), called("pump")), created(ONE)))
    s.card("L6 Re-key moves a name", (rekey(ONE), named(REKEY, TWO)))
    s.table("L6 bodies after a name was moved", body_at(0), body(9, 9, 4, fresh(0, 16)) + body(9, 9, 4, fresh(0, 16), letters="pump"))
    old, new = dict(limit=(9, 9, 1), replacement=TWO), dict(limit=(9, 9, 1), replaced=ONE)
    s.card(
        "L6 after a name was moved",
        (attributes(ONE), shown(ONE, 1, **old)),
        (attributes(TWO), shown(TWO, 1, letters="pump", **new)),
        (locate("pump"), found(TWO)),
        (get(), handed(TWO, fresh(0, 16))),
        (create(called("pump")), failed(CREATE, NON_UNIQUE_NAME)),
    )
    s.about("L6: a Re-key that fails moves nothing: of a replaced key, of a destroyed one, with an Offset that does not fit, with nothing left to issue.")
    s.fails("L6 Re-key of a key that was replaced", rekey(ONE), REKEY, PERMISSION_DENIED)
    s.put(line_at(1), line(2, 1, 1, replaced=1, replacement=3))
    s.put(0, lead(3)[:4])
    s.fails("L6 Re-key of a key with a name and a replacement", rekey(TWO), REKEY, PERMISSION_DENIED)
    s.card("L6 after a Re-key that was not permitted", (locate("pump"), found(TWO)), (destroy(), named(DESTROY, TWO)))
    s.fails("L6 Re-key of a destroyed key with a name", rekey(TWO), REKEY, OBJECT_DESTROYED)
    s.card("L6 after a Re-key of a destroyed key", (locate("pump"), found(TWO)))
    s.card("L6 a key with a deactivation date alone", (create(ends(9), called("tap")), created(FOUR)))
    s.fails("L6 Re-key with an Offset that does not fit", rekey(FOUR, offset(1)), REKEY, INVALID_FIELD)
    s.put(0, lead(0xFFFFFFFF)[:4])
    s.fails("L6 Re-key with nothing left to issue", rekey(FOUR), REKEY, SERVER_LIMIT_EXCEEDED)
    s.card("L6 after Re-keys that failed", (locate("tap"), found(FOUR)), (attributes(), shown(FOUR, 1, deactivation=9, letters="tap")))
    s.about("L6: of a key without a name nothing moves; and a name goes on with each Re-key, in one batch, by identifier and by placeholder, with an Offset.")
    s.blank()
    s.card(
        "L6 Re-keys in one batch",
        (create(called("pump")), created(ONE)),
        (create(), created(TWO)),
        (rekey(), named(REKEY, THREE)),
        (attributes(), shown(THREE, 1, replaced=TWO)),
        (locate("pump"), found(ONE)),
        (rekey(), named(REKEY, FOUR)),
        (attributes(ONE), shown(ONE, 1, replacement=FOUR)),
        (locate("pump"), found(FOUR)),
        (create(called("pump")), failed(CREATE, NON_UNIQUE_NAME)),
        (rekey(FOUR, offset(9)), named(REKEY, FIVE)),
        (locate("pump"), found(FIVE)),
        (attributes(), shown(FIVE, 1, replaced=FOUR, activation=10, letters="pump")),
        option=CONTINUE,
    )
    keys = [body(0, 0, 4, fresh(0, 16)), body(0, 0, 4, fresh(1, 16)), body(0, 0, 4, fresh(2, 16)), body(0, 0, 4, fresh(5, 16))]
    s.table("L6 bodies after Re-keys in one batch", body_at(0), b"".join(keys) + body(0, 0, 4, fresh(9, 16), 10, letters="pump"))
    s.about("L6: in every state that can be replaced, and the old key keeps all else.")
    six_states(s)
    for place in range(6):
        s.put(body_at(place) + NAME_IN, name_field(f"key {place + 1}"))
    results = ["00000007", "00000008", "00000009", "0000000A", OBJECT_DESTROYED, OBJECT_DESTROYED]
    pairs = [(rekey(name_of(n)), named(REKEY, result) if isinstance(result, str) else failed(REKEY, result)) for n, result in enumerate(results, 1)]
    s.card("L6 Re-key with names on states 1 to 6", *pairs, option=CONTINUE)
    left = b"".join(stored(state) for state in range(1, 5)) + body(100, 50, 4, letters="key 5") + body(100, 50, 4, letters="key 6")
    s.table("L6 old bodies after Re-key with names", body_at(0), left)
    s.table("L6 new bodies after Re-key with names", body_at(6), b"".join(body(100, 100, 4, fresh(n, 16), letters=f"key {n + 1}") for n in range(4)))


def cards_of_names_and_places(s):
    s.about("L6: a full table, its destroyed keys at places 9, called pump, and 12, called tap. The name is tested before a place is chosen.")
    full_table(s)
    s.put(line_at(9), line(10, 5))
    s.put(body_at(9) + NAME_IN, name_field("pump"))
    s.put(line_at(12), line(13, 6))
    s.put(body_at(12) + NAME_IN, name_field("tap"))
    s.fails("L6 Create with the name of the key whose place it would take", create(called("pump")), CREATE, NON_UNIQUE_NAME)
    s.fails("L6 Create with the name of the other destroyed key", create(called("tap")), CREATE, NON_UNIQUE_NAME)
    s.table("L6 line of place 9, not taken", line_at(9), line(10, 5))
    s.about("L6: a place that is taken over gives its name free, in the same batch already.")
    s.card(
        "L6 Creates in the places of keys with names",
        (create(called("pump")), failed(CREATE, NON_UNIQUE_NAME)),
        (create(), created("00000041")),
        (locate("pump"), found_none()),
        (attributes("0000000A"), failed(GET_ATTRIBUTES, OBJECT_NOT_FOUND)),
        (create(called("pump")), created("00000042")),
        (locate("tap"), found_none()),
        (locate("pump"), found("00000042")),
        (create(called("tap")), failed(CREATE, SERVER_LIMIT_EXCEEDED)),
        option=CONTINUE,
    )
    s.table("L6 body of place 9 without a name", body_at(9), body(0, 0, 4, fresh(1, 16)))
    s.table("L6 body of place 12 with the name pump", body_at(12), body(0, 0, 4, fresh(4, 16), letters="pump"))
    s.about("L6: the same by Re-key, which takes its own name along; a shorter name leaves nothing of a longer one behind it.")
    s.card("L6 place 12 destroyed", (destroy("00000042"), named(DESTROY, "00000042")))
    s.put(body_at(12) + NAME_IN, name_field(LONG))
    s.put(body_at(0) + NAME_IN, name_field("p"))
    s.card(
        "L6 Re-key in the place of a key with a name",
        (locate(LONG), found("00000042")),
        (rekey(ONE), named(REKEY, "00000043")),
        (locate(LONG), found_none()),
        (locate("p"), found("00000043")),
    )
    s.table("L6 body of place 12 with the name p", body_at(12), body(0, 0, 0, fresh(1, 16), letters="p"))
    s.table("L6 name field of place 0, moved", body_at(0) + NAME_IN, bytes(40))


# ---- L7: 64 or 256 places

OTHER_COUNTS = (0, 63, 65, 128, 255, 257, 2**32 - 1)


def cards_of_place_counts(s):
    s.about(
        "L7: the lead's place count may be 64 or 256, and the table's size follows from it; any other count is refusal 3, in a table of either size and in one",
        "of its own. The table is blank but for its count.",
    )
    asked = request(attributes())
    s.blank(LARGE)
    for count in OTHER_COUNTS:
        s.put(PLACE_COUNT, count.to_bytes(4, "big"))
        own = [size_of(count)] if size_of(count) < size_of(LARGE) else []
        for size in [*own, size_of(SMALL), size_of(LARGE)]:
            s.say(f"size {size}")
            s.refused(f"L7 refusal 3, {count} places in {size} bytes", asked, 3)
    s.about("L7: the size of the other count; one byte too few for 256 places, one place too many for 64. Then both counts in their sizes, over the same bytes.")
    for count, sizes in [(LARGE, (8208, 32783)), (SMALL, (32784, 8336))]:
        s.put(PLACE_COUNT, count.to_bytes(4, "big"))
        for size in sizes:
            s.say(f"size {size}")
            s.refused(f"L7 refusal 3, {count} places in {size} bytes", asked, 3)
        s.table(f"L7 lead of {count} places after refusals", 0, lead(0, latest=0, places=count))
    nothing = (attributes(), failed(GET_ATTRIBUTES, OBJECT_NOT_FOUND))
    for count in (SMALL, LARGE):
        s.put(PLACE_COUNT, count.to_bytes(4, "big"))
        s.say(f"size {size_of(count)}")
        s.say(f"undo {size_of(count)}")
        s.card(f"L7 {count} places in {size_of(count)} bytes", nothing)


def cards_of_a_large_table(s):
    s.about("L7: a blank table of 256 places: its bodies begin where 256 lines end, and where those of 64 places began stands the line of place 64.")
    s.blank(LARGE)
    s.table("L7 lead of a blank table of 256 places", 0, lead(0, latest=0, places=LARGE))
    s.card("L7 Create, the first of 256", (create(called("pump")), created(ONE)))
    s.table("L7 lead and lines after the first of 256", 0, lead(1, places=LARGE) + line(1, 1) + bytes(16))
    s.table("L7 line of place 64, free", body_at(0), bytes(16))
    s.table("L7 bodies after the first of 256", s.body_at(0), body(0, 0, 4, fresh(0, 16), letters="pump") + bytes(BODY_SIZE))
    s.about("L7: what is sound at places above 63. The first is sound: keys 2 and 3 at places 64 and 255. Each fault is laid over it and taken back.")
    s.put(0, lead(3, places=LARGE)[:4])
    s.key(64, line(2, 2, 1), body(100, 40, 4, material(2)))
    s.key(255, line(3, 5), body(letters="tap"))
    asked, answer = attributes(TWO), shown(TWO, 2, limit=(100, 40, 1))
    s.card("L7 sound table of 256 places", (asked, answer))
    for name, at, fault, right in [
        ("a free line with a state, place 254", line_at(254) + 4, b"\1", b"\0"),
        ("a free body with a byte, place 254", s.body_at(255) - 1, b"\1", b"\0"),
        ("a serial at places 64 and 255", line_at(255), unhex("00000002"), unhex("00000003")),
        ("state 7 at place 255", line_at(255) + 4, b"\7", b"\5"),
        ("count above total at place 64", s.body_at(64) + 8, numbers(101), numbers(40)),
        ("a key byte in state 5 at place 255", s.body_at(255) + MATERIAL_IN + 15, b"\1", b"\0"),
        ("a link to place 0 that does not name back", line_at(255) + 8, unhex("00000001"), bytes(4)),
        ("a name at places 0 and 255", s.body_at(255) + NAME_IN, name_field("pump"), name_field("tap")),
        ("the last byte of the table", size_of(LARGE) - 1, b"\1", b"\0"),
    ]:
        s.put(at, fault)
        s.refused(f"L7 unsound, {name}", request(asked), 3)
        s.put(at, right)
    s.card("L7 sound table of 256 places again", (asked, answer))


def cards_of_256_keys(s):
    s.about("L7: where a new key goes. 255 live keys, Active and without limit, serials 1 to 255 in order: the 256th takes place 255, and the 257th fails.")
    s.blank(LARGE)
    s.put(0, lead(255, places=LARGE)[:4])
    s.put(line_at(0), b"".join(line(serial, 2) for serial in range(1, 256)))
    last = name_of(256)
    s.card("L7 the 256th Create", (create(limit(100, 2), called("last")), created(last)))
    s.table("L7 lines of places 254 and 255", line_at(254), line(255, 2) + line(256, 1, 2))
    s.table("L7 body of place 255", s.body_at(255), body(100, 100, 4, fresh(0, 16), letters="last"))
    s.fails("L7 256 live keys, Create", create(), CREATE, SERVER_LIMIT_EXCEEDED)
    s.fails("L7 256 live keys, Re-key", rekey(ONE), REKEY, SERVER_LIMIT_EXCEEDED)
    s.fails("L7 256 live keys, Create with the name of place 255", create(called("last")), CREATE, NON_UNIQUE_NAME)
    s.table("L7 lead of 256 live keys", 0, lead(256, places=LARGE))
    s.about("L7: the key at place 255 by its name and by its identifier.")
    s.card(
        "L7 Locate and what follows at place 255",
        (locate("last"), found(last)),
        (activate(), named(ACTIVATE, last)),
        (allocate(None, 60), named(ALLOCATE, last)),
        (get(last), handed(last, fresh(0, 16))),
        (attributes(last), shown(last, 2, limit=(100, 40, 2), activation=1, letters="last")),
        (allocate(last, 41), failed(ALLOCATE, USAGE_LIMIT_EXCEEDED)),
    )
    s.table("L7 body of place 255 after a grant", s.body_at(255), body(100, 40, 4, fresh(0, 16), 1, letters="last"))
    s.about("L7: place 200 destroyed: the new key sits there and the old identifier is not found.")
    old, new = name_of(201), name_of(257)
    s.card("L7 place 200, destroyed", (revoke(old, 1), named(REVOKE, old)), (destroy(old), named(DESTROY, old)))
    s.card("L7 place 200, Create", (create(bits=256, mask=12), created(new)), (attributes(old), failed(GET_ATTRIBUTES, OBJECT_NOT_FOUND)))
    s.table("L7 lines of places 199 to 201", line_at(199), line(200, 2) + line(257, 1, bits=256) + line(202, 2))
    s.table("L7 body of place 200", s.body_at(200), body(0, 0, 12, fresh(0, 32)))
    s.about("L7: Re-key of the key at place 255 into the free place 100, past the destroyed place 64, which a Create takes then.")
    s.put(line_at(64), line(65, 6))
    s.put(line_at(100), bytes(16))
    heir = name_of(258)
    s.card("L7 Re-key into place 100, Create in place 64", (rekey(last), named(REKEY, heir)), (locate("last"), found(heir)), (create(), created(name_of(259))))
    s.table("L7 line of place 100, linked", line_at(100), line(258, 2, 2, replaced=256))
    s.table("L7 line of place 255, linked", line_at(255), line(256, 2, 2, replacement=258))
    s.table("L7 body of place 100", s.body_at(100), body(100, 100, 4, fresh(0, 16), 1, letters="last"))
    s.table("L7 name field of place 255, moved", s.body_at(255) + NAME_IN, bytes(40))
    s.table("L7 lines of places 63 to 65", line_at(63), line(64, 2) + line(259, 1) + line(66, 2))


def cards_of_due_changes_in_a_large_table(s):
    s.about("L7: due changes at places 63 and 64 and at the last, and the key at place 255 as the items of the same request find it.")
    s.blank(LARGE)
    s.put(0, lead(4, places=LARGE)[:4])
    for serial, (place, *key) in enumerate([(63, 1, 7), (64, 1, 7), (128, 1, 8), (255, 2, 0, 7)], 1):
        s.key(place, line(serial, key[0], 2), dated(*key))
    s.say("clock 6")
    s.fails("L7 clock 6, one before the dates", destroy(FOUR), DESTROY, WRONG, clock=6)
    s.say("clock 7")
    s.card("L7 clock 7, the dates have come", (allocate(TWO, 50), named(ALLOCATE, TWO)), (destroy(FOUR), named(DESTROY, FOUR)), clock=7)
    s.table("L7 lead after the due changes", 0, lead(4, latest=7, places=LARGE))
    s.table("L7 lines of places 63 and 64 after the due changes", line_at(63), line(1, 2, 2) + line(2, 2, 2))
    s.table("L7 line of place 128 after the due changes", line_at(128), line(3, 1, 2))
    s.table("L7 line of place 255 after the due changes", line_at(255), line(4, 5, 2))
    s.table("L7 body of place 64 after the due changes", s.body_at(64), body(100, 0, 4, material(1), 7))
    s.about("L7: a blank table of 64 places in the place of that one: nothing of it is left, behind the smaller table neither.")
    s.say("blank 64")
    s.table("L7 lead of a blank table of 64 places", 0, lead(0, latest=0))
    s.table("L7 bytes behind it, where the body of place 64 was", s.body_at(64), bytes(BODY_SIZE))


# ---- L8: undo

LOST = (activate("00000000"), failed(ACTIVATE, OBJECT_NOT_FOUND))  # an item that fails on every table
FRESH = b"\xEE"  # what the second buffer is full of at first
FRESH_OUTPUT = b"\xFF" * 64

# key 1 Pre-Active; key 2 Active, with a total of 100 and a name; keys 3, 4 and 5 Deactivated, Compromised and Destroyed; a free place
UNDO_LINES = line(1, 1) + line(2, 2, 1) + line(3, 3) + line(4, 4) + line(5, 5) + bytes(16)
UNDO_BODIES = (
    body(material=material(1)) + body(100, 100, material=material(2), letters="pump") + body(material=material(3)) + body(material=material(4)) + body() + bytes(BODY_SIZE)
)


def keys_to_undo(s, places=SMALL):
    s.blank(places)
    s.put(0, lead(5, places=places)[:4])
    s.put(line_at(0), UNDO_LINES)
    s.put(s.body_at(0), UNDO_BODIES)


def as_before(s, name, latest=1):
    """Table and second buffer are both those that the first item met."""
    for view, where in [(s.table, "table"), (s.second, "second buffer")]:
        view(f"{name}, lead and lines of the {where}", 0, lead(5, latest, s.places) + UNDO_LINES)
        view(f"{name}, bodies of the {where}", s.body_at(0), UNDO_BODIES)


def cards_of_undone_items(s):
    s.about(
        "L8: option 3: if any item fails, the table after the request is the table before it. What had succeeded carries status 3 and no payload, whatever its",
        "operation, and the second buffer holds the table before the first item. Each operation, and then an item that fails.",
    )
    for words, item, operation in [
        ("Create", create(limit(9, 1), called("tap")), CREATE),
        ("Re-key", rekey(TWO), REKEY),
        ("Re-key with Offset", rekey(ONE, offset(5)), REKEY),
        ("Locate of a key", locate("pump"), LOCATE),
        ("Locate of none", locate("tap"), LOCATE),
        ("Get", get(TWO), GET),
        ("Get Attributes", attributes(TWO), GET_ATTRIBUTES),
        ("Get Usage Allocation", allocate(TWO, 60), ALLOCATE),
        ("Activate", activate(ONE), ACTIVATE),
        ("Revoke", revoke(TWO, 1), REVOKE),
        ("Revoke as compromised", revoke(ONE, 2), REVOKE),
        ("Revoke of a destroyed key", revoke(FIVE, 3), REVOKE),
        ("Destroy", destroy(THREE), DESTROY),
        ("Destroy of a compromised key", destroy(FOUR), DESTROY),
    ]:
        keys_to_undo(s)
        s.card(f"L8 {words}, undone", (item, undone(operation)), LOST, option=UNDO)
        as_before(s, f"L8 after {words}, undone")
    s.about("L8: all of them in one batch, and one that fails.")
    keys_to_undo(s)
    s.card(
        "L8 every operation, undone",
        (create(limit(9, 1), called("tap")), undone(CREATE)),
        (activate(), undone(ACTIVATE)),
        (allocate(None, 9), undone(ALLOCATE)),
        (revoke(None, 1), undone(REVOKE)),
        (destroy(), undone(DESTROY)),
        (rekey(TWO), undone(REKEY)),
        (locate("pump"), undone(LOCATE)),
        (get(), undone(GET)),
        (attributes(), undone(GET_ATTRIBUTES)),
        (destroy(THREE), undone(DESTROY)),
        (get(THREE), failed(GET, OBJECT_DESTROYED)),
        option=UNDO,
    )
    as_before(s, "L8 after every operation, undone")


def cards_of_the_failed_item(s):
    s.about("L8: the failed one carries its reason, whichever it is, also one that what was done before it in the batch gives.")
    for words, item, operation, reason in [
        ("Operation Not Supported", ask(0x3B), 0x3B, NOT_SUPPORTED),
        ("Invalid Field", create(bits=129), CREATE, INVALID_FIELD),
        ("Usage Limit Exceeded", allocate(TWO, 101), ALLOCATE, USAGE_LIMIT_EXCEEDED),
        ("Non Unique Name", create(called("pump")), CREATE, NON_UNIQUE_NAME),
        ("Object Destroyed", get(FIVE), GET, OBJECT_DESTROYED),
        ("Object Not Found", attributes(SIX), GET_ATTRIBUTES, OBJECT_NOT_FOUND),
        ("Wrong Key Lifecycle State", destroy(TWO), DESTROY, WRONG),
    ]:
        keys_to_undo(s)
        s.card(f"L8 undone by {words}", (destroy(FOUR), undone(DESTROY)), (item, failed(operation, reason)), option=UNDO)
        as_before(s, f"L8 after {words}")
    for words, first, operation, second, other, reason in [
        ("Activate twice", activate(ONE), ACTIVATE, activate(ONE), ACTIVATE, WRONG),
        ("Re-key twice", rekey(TWO), REKEY, rekey(TWO), REKEY, PERMISSION_DENIED),
        ("60 units and 41", allocate(TWO, 60), ALLOCATE, allocate(TWO, 41), ALLOCATE, USAGE_LIMIT_EXCEEDED),
        ("a name twice", create(called("tap")), CREATE, create(called("tap")), CREATE, NON_UNIQUE_NAME),
        ("Destroy twice", destroy(THREE), DESTROY, destroy(THREE), DESTROY, OBJECT_DESTROYED),
        ("Locate of none and the placeholder", locate("tap"), LOCATE, get(), GET, OBJECT_NOT_FOUND),
    ]:
        keys_to_undo(s)
        s.card(f"L8 undone, {words}", (first, undone(operation)), (second, failed(other, reason)), option=UNDO)
        as_before(s, f"L8 after {words}")
    s.about("L8: the last serial, twice: Server Limit Exceeded. The last serial issued goes back too.")
    s.blank()
    s.put(0, unhex("FFFFFFFE"))
    s.card("L8 undone, the last serial", (create(), undone(CREATE)), (create(), failed(CREATE, SERVER_LIMIT_EXCEEDED)), option=UNDO)
    s.table("L8 lead and line after the last serial", 0, lead(0xFFFFFFFE) + bytes(16))
    s.card("L8 the last serial, still there", (create(), created("FFFFFFFF")), option=UNDO)
    s.table("L8 lead and line with the last serial", 0, lead(0xFFFFFFFF) + line(0xFFFFFFFF, 1))
    s.second("L8 second buffer before the last serial", 0, lead(0xFFFFFFFE) + bytes(16))


def cards_of_where_it_fails(s):
    s.about("L8: items up to and including the failed one are answered, and no later one: the only item, the first, one in the middle, the last.")
    items = [(activate(ONE), ACTIVATE), (destroy(THREE), DESTROY), (create(), CREATE)]
    gone = [(item, undone(operation)) for item, operation in items]
    never = [(item, None) for item, _ in items]
    for words, pairs in [
        ("alone", [LOST]),
        ("first of four", [LOST, *never]),
        ("second of four", [gone[0], LOST, *never[1:]]),
        ("third of four", [*gone[:2], LOST, never[2]]),
        ("last of four", [*gone, LOST]),
        ("second and fourth of four", [gone[0], LOST, never[1], (LOST[0], None)]),
    ]:
        keys_to_undo(s)
        s.card(f"L8 the failed item {words}", *pairs, option=UNDO)
        as_before(s, f"L8 after the failed item {words}")
    s.about("L8: the same under Stop and without option, where what had succeeded stays, and under Continue, where the rest is done too. Nothing is undone.")
    for words, option in [("without option", None), ("Stop", STOP)]:
        keys_to_undo(s)
        s.card(f"L8 {words}, second of four fails", (activate(ONE), named(ACTIVATE, ONE)), LOST, *never[1:], option=option)
        s.table(f"L8 {words}, lines", line_at(0), line(1, 2) + UNDO_LINES[16:])
        s.second(f"L8 {words}, second buffer as it was", 0, FRESH * 128)
    keys_to_undo(s)
    rest = [(destroy(THREE), named(DESTROY, THREE)), (create(), created(SIX))]
    s.card("L8 Continue, second of four fails", (activate(ONE), named(ACTIVATE, ONE)), LOST, *rest, option=CONTINUE)
    s.table("L8 Continue, lines", line_at(0), line(1, 2) + line(2, 2, 1) + line(3, 5) + line(4, 4) + line(5, 5) + line(6, 1))
    s.second("L8 Continue, second buffer as it was", 0, FRESH * 128)


def cards_of_a_batch_that_passes(s):
    s.about("L8: no item fails: answers and table as under Stop. The second buffer holds the table before the first item then too, due changes and clock stored.")
    pairs = [
        (create(limit(9, 1), called("tap")), created(SIX)),
        (activate(), named(ACTIVATE, SIX)),
        (allocate(None, 4), named(ALLOCATE, SIX)),
        (get(), handed(SIX, fresh(0, 16))),
        (locate("pump"), found(TWO)),
        (rekey(), named(REKEY, "00000007")),
        (attributes(TWO), shown(TWO, 2, limit=(100, 100, 1), replacement="00000007")),
        (destroy(FOUR), named(DESTROY, FOUR)),
    ]
    lines = line(1, 1) + line(2, 2, 1, replacement=7) + line(3, 3) + line(4, 6) + line(5, 5) + line(6, 2, 1) + line(7, 1, 1, replaced=2)
    bodies = body(material=material(1)) + body(100, 100, material=material(2)) + body(material=material(3)) + body() + body()
    bodies += body(9, 5, material=fresh(0, 16), activation=1, letters="tap") + body(100, 100, material=fresh(5, 16), letters="pump")
    for words, option in [("Stop", STOP), ("Undo", UNDO)]:
        keys_to_undo(s)
        s.card(f"L8 eight items pass, {words}", *pairs, option=option)
        s.table(f"L8 eight items pass, {words}, lead and lines", 0, lead(7) + lines + bytes(16))
        s.table(f"L8 eight items pass, {words}, bodies", body_at(0), bodies + bytes(BODY_SIZE))
    s.second("L8 eight items pass, lead and lines of the second buffer", 0, lead(5) + UNDO_LINES)
    s.second("L8 eight items pass, bodies of the second buffer", body_at(0), UNDO_BODIES)
    s.second("L8 nothing past the lent bytes of the second buffer", size_of(SMALL) - 1, b"\0" + FRESH * 7)


def cards_of_never_made(s):
    s.about("L8: grants, names and changes of state in undone items count as never made: the units are still there, the name is free, the key is not destroyed.")
    keys_to_undo(s)
    s.card("L8 100 units undone", (allocate(TWO, 100), undone(ALLOCATE)), (allocate(TWO, 1), failed(ALLOCATE, USAGE_LIMIT_EXCEEDED)), option=UNDO)
    s.card("L8 100 units granted then", (allocate(TWO, 60), named(ALLOCATE, TWO)), (allocate(TWO, 40), named(ALLOCATE, TWO)), option=UNDO)
    s.table("L8 count after 100 units", body_at(1) + 8, numbers(0))
    s.second("L8 count in the second buffer", body_at(1) + 8, numbers(100))
    s.card("L8 a unit too many, alone", (allocate(TWO, 1), failed(ALLOCATE, USAGE_LIMIT_EXCEEDED)), option=UNDO)
    s.second("L8 count in the second buffer after that", body_at(1) + 8, numbers(0))
    keys_to_undo(s)
    s.card("L8 Destroy undone by a Get", (destroy(THREE), undone(DESTROY)), (get(THREE), failed(GET, OBJECT_DESTROYED)), option=UNDO)
    s.card("L8 the key is handed out then", (get(THREE), handed(THREE, material(3))))
    s.card("L8 a name undone", (create(called("tap")), undone(CREATE)), (locate("tap"), undone(LOCATE)), LOST, option=UNDO)
    s.card("L8 the name is free then", (locate("tap"), found_none()), (create(called("tap")), created(SIX)), (locate("tap"), found(SIX)), option=UNDO)
    s.about("L8: a Re-key undone: the old key has its name and no link, and can be replaced.")
    keys_to_undo(s)
    s.card("L8 Re-key undone", (rekey(TWO), undone(REKEY)), (locate("pump"), undone(LOCATE)), LOST, option=UNDO)
    s.card("L8 Re-key then", (locate("pump"), found(TWO)), (rekey(), named(REKEY, SIX)), (locate("pump"), found(SIX)), option=UNDO)


def cards_of_serials_issued_again(s):
    s.about("L8: a serial from an undone item may be issued again, and names another key, with other material: the second item of its batch takes other bytes.")
    keys_to_undo(s)
    s.card("L8 serial 6 undone", (create(), undone(CREATE)), (get(), undone(GET)), LOST, option=UNDO)
    s.table("L8 last serial after serial 6 was undone", 0, lead(5))
    s.card("L8 serial 6 issued again", (attributes(ONE), shown(ONE, 1)), (create(bits=256), created(SIX)), (get(), handed(SIX, fresh(1, 32))))
    s.table("L8 lead and line 6 with serial 6", 0, lead(6) + UNDO_LINES[:80] + line(6, 1, bits=256))
    s.table("L8 body of serial 6", body_at(5), body(material=fresh(1, 32)))
    keys_to_undo(s)
    s.card("L8 serial 6 of a Re-key undone", (rekey(TWO), undone(REKEY)), LOST, option=UNDO)
    s.card("L8 serial 6 issued again by Create", (create(), created(SIX)), option=UNDO)
    s.card("L8 serials 7 and 8 undone", (create(), undone(CREATE)), (rekey(), undone(REKEY)), LOST, option=UNDO)
    s.card("L8 serial 7 issued again by Re-key", (rekey(SIX), named(REKEY, "00000007")))
    s.about("L8: a destroyed place that an undone Create had taken still holds its record.")
    s.blank()
    s.put(0, lead(64)[:4])
    s.put(line_at(0), b"".join(line(serial, 5 if serial == 10 else 2) for serial in range(1, 65)))
    s.card("L8 place 9 taken and given back", (create(), undone(CREATE)), (create(), failed(CREATE, SERVER_LIMIT_EXCEEDED)), option=UNDO)
    s.table("L8 lines of places 8 to 10", line_at(8), line(9, 2) + line(10, 5) + line(11, 2))
    s.card("L8 the old key is found", (attributes("0000000A"), shown("0000000A", 5, mask=0)), option=UNDO)


def cards_of_clock_and_dates_kept(s):
    s.about("L8: the latest clock and the due changes stay. Keys 1 and 2 start and stop at 7; they do before the first item, in the second buffer too.")
    s.blank()
    s.put(0, lead(3)[:4])
    s.key(0, line(1, 1), body(material=material(1), activation=7))
    s.key(1, line(2, 2), body(material=material(2), deactivation=7))
    s.key(2, line(3, 1), body(material=material(3), activation=8))
    s.say("clock 6")
    waits = [(destroy(THREE), undone(DESTROY)), (revoke(ONE, 1), failed(REVOKE, WRONG))]
    s.card("L8 clock 6, undone", *waits, option=UNDO, clock=6)
    s.table("L8 clock 6, lead and lines", 0, lead(3, 6) + line(1, 1) + line(2, 2) + line(3, 1))
    s.say("clock 7")
    s.card("L8 clock 7, undone", (revoke(ONE, 1), undone(REVOKE)), (destroy(TWO), undone(DESTROY)), LOST, option=UNDO, clock=7)
    for view, where in [(s.table, "table"), (s.second, "second buffer")]:
        view(f"L8 clock 7, lead and lines of the {where}", 0, lead(3, 7) + line(1, 2) + line(2, 3) + line(3, 1))
        view(f"L8 clock 7, bodies of the {where}", body_at(0), body(material=material(1), activation=7) + body(material=material(2), deactivation=7))
    s.about("L8: a clock that goes back counts as the latest, in an undone batch too; and the due change of key 3 when every item passes.")
    s.say("clock 3")
    s.card("L8 clock 3 after 7, undone", (destroy(THREE), undone(DESTROY)), LOST, option=UNDO, clock=7)
    s.table("L8 clock 3 after 7, lead", 0, lead(3, 7))
    s.say("clock 8")
    s.card("L8 clock 8, no item fails", (revoke(THREE, 1), named(REVOKE, THREE)), option=UNDO, clock=8)
    s.table("L8 clock 8, lead and line 3 of the table", 0, lead(3, 8) + line(1, 2) + line(2, 3) + line(3, 3))
    s.second("L8 clock 8, lead and line 3 of the second buffer", 0, lead(3, 8) + line(1, 2) + line(2, 3) + line(3, 2))
    s.table("L8 clock 8, dates of key 3 in the table", body_at(2) + ACTIVATION_IN, numbers(8, 8))
    s.second("L8 clock 8, dates of key 3 in the second buffer", body_at(2) + ACTIVATION_IN, numbers(8, 0))
    s.say("clock 9")
    s.card("L8 clock 9, every item fails", LOST, option=UNDO, clock=9)
    s.table("L8 clock 9, lead of the table", 0, lead(3, 9))
    s.second("L8 clock 9, lead of the second buffer", 0, lead(3, 9))


def cards_of_the_second_buffer(s):
    s.about("L8: it is untouched by any other request: with options 1 and 2 and without, whether items fail or not, and by what is refused.")
    for words, option in [("without option", None), ("option 1", CONTINUE), ("option 2", STOP)]:
        for end, pairs in [("passes", [(activate(ONE), named(ACTIVATE, ONE))]), ("fails", [LOST])]:
            keys_to_undo(s)
            s.card(f"L8 {words}, {end}", *pairs, option=option)
            s.second(f"L8 {words}, {end}, second buffer", 0, FRESH * 64)
            s.second(f"L8 {words}, {end}, end of the second buffer", size_of(SMALL) - 8, FRESH * 16)
    s.about("L8: refused with option 3, for version, count, option and clock.")
    keys_to_undo(s)
    item = activate(ONE)
    s.refused("L8 option 3, version 2.0", request(item, option=UNDO, version=(2, 0)), 7)
    s.refused("L8 option 3, Batch Count 2", request(item, option=UNDO, count=2), 8)
    for option in (0, 4, 0x103, 0x80000003):
        s.refused(f"L8 option {option}", request(item, option=option), 9)
    s.say("clock 0")
    s.refused("L8 option 3, clock 0", request(item, option=UNDO), 10)
    s.say("clock 1")
    s.second("L8 second buffer after refusals", 0, FRESH * 64)
    s.table("L8 lead and lines after refusals", 0, lead(5, 0) + UNDO_LINES)
    s.about("L8: what it held before plays no part: after one request with option 3, the next finds the table before there.")
    s.card("L8 option 3, the first", (activate(ONE), named(ACTIVATE, ONE)), option=UNDO)
    as_lines = lead(5) + line(1, 2) + UNDO_LINES[16:]
    s.second("L8 second buffer of the first", 0, lead(5) + UNDO_LINES)
    s.card("L8 option 2 after it", (destroy(THREE), named(DESTROY, THREE)), option=STOP)
    s.second("L8 second buffer of the first, still", 0, lead(5) + UNDO_LINES)
    s.put(line_at(2), line(3, 3))
    s.put(body_at(2) + MATERIAL_IN, material(3))
    s.card("L8 option 3, the second", (destroy(THREE), undone(DESTROY)), LOST, option=UNDO)
    s.second("L8 second buffer of the second", 0, as_lines)
    s.table("L8 table of the second", 0, as_lines)


def cards_of_sizes_of_the_second_buffer(s):
    s.about("L8: a wrong size is refusal 11, tested after 10, for every option; a host that never uses option 3 lends one too.")
    for places in (SMALL, LARGE):
        keys_to_undo(s, places)
        size, other = size_of(places), size_of(SMALL + LARGE - places)
        for length in (0, 16, size - 1, size + 1, other):
            s.say(f"undo {length}")
            for words, option in [("no option", None), ("option 1", CONTINUE), ("option 2", STOP), ("option 3", UNDO)]:
                s.refused(f"L8 refusal 11, {places} places, second buffer of {length}, {words}", request(activate(ONE), option=option), 11)
            s.say("clock 0")
            s.refused(f"L8 refusal 10 before 11, {places} places, second buffer of {length}", request(activate(ONE), option=UNDO), 10)
            s.refused(f"L8 refusal 9 before 11, {places} places, second buffer of {length}", request(activate(ONE), option=4), 9)
            s.say("clock 1")
        s.table(f"L8 {places} places, lead and lines after refusal 11", 0, lead(5, 0, places) + UNDO_LINES)
        s.second(f"L8 {places} places, second buffer after refusal 11", 0, FRESH * 64)
        s.output(f"L8 {places} places, output after refusal 11", 0, FRESH_OUTPUT)
        s.say(f"undo {size}")
        s.card(f"L8 {places} places, second buffer of {size}", (activate(ONE), named(ACTIVATE, ONE)), option=UNDO)
        s.second(f"L8 {places} places, lead and lines of the second buffer", 0, lead(5, 1, places) + UNDO_LINES)
        s.second(f"L8 {places} places, past the second buffer", size, FRESH * 8)


def cards_of_sixteen_items(s):
    s.about("L8: sixteen items under Undo: none fails, the first fails, the last fails.")
    names = [name_of(serial) for serial in range(6, 22)]
    made = [(create(), created(name)) for name in names]
    keys_to_undo(s)
    s.card("L8 sixteen Creates pass", *made, option=UNDO)
    s.table("L8 lead and lines after sixteen Creates", 0, lead(21) + UNDO_LINES[:80] + b"".join(line(serial, 1) for serial in range(6, 22)))
    s.second("L8 second buffer after sixteen Creates", 0, lead(5) + UNDO_LINES + bytes(240))
    keys_to_undo(s)
    s.card("L8 the first of sixteen fails", LOST, *[(create(), None)] * 15, option=UNDO)
    as_before(s, "L8 after the first of sixteen fails")
    s.card("L8 the last of sixteen fails", *[(create(), undone(CREATE))] * 15, LOST, option=UNDO)
    as_before(s, "L8 after the last of sixteen fails")
    s.about("L8: the longest response under Undo: sixteen times 392 bytes. With fifteen of them undone, nothing past the shorter response is written.")
    s.blank()
    s.put(0, lead(3)[:4])
    dates = dict(activation=1, deactivation=9)
    letters = 32 * "x"
    s.key(0, line(2, 2, 1, replaced=1, replacement=3), body(100, 40, material=material(2), letters=letters, **dates))
    ids = [bytes([index + 1] * 16) for index in range(16)]
    asked = [attributes(TWO, id=id) for id in ids]
    answer = dict(limit=(100, 40, 1), replaced=ONE, replacement=THREE, letters=letters, **dates)
    pairs = [(item, shown(TWO, 2, id=id, **answer)) for item, id in zip(asked, ids)]
    assert len(response(*[answer for _, answer in pairs])) == 6360
    gone = [(item, undone(GET_ATTRIBUTES, id=id)) for item, id in zip(asked, ids)]
    s.put(LATEST_CLOCK, numbers(1))
    s.card("L8 fifteen long answers undone", *gone[:15], LOST, option=UNDO)
    length = 88 + 15 * 64 + 56
    assert len(response(*[answer for _, answer in gone[:15]], LOST[1])) == length
    s.output("L8 output past the undone answers as it was", length, b"\xFF" * (6368 - length))
    s.card("L8 sixteen long answers pass", *pairs, option=UNDO)
    s.output("L8 output past the long answers as it was", 6360, b"\xFF" * 8)


def cards_of_an_undone_response(s):
    s.about("L8: a whole response of an undone batch: IDs of 1, 8, 9 and 16 bytes are echoed, an undone item without one has 40 bytes, and the output past it is full of FF.")
    keys_to_undo(s)
    ids = [bytes(range(0xF0, 0xF0 + length)) for length in (1, 8, 9, 16)]
    pairs = [
        (activate(ONE), PRINTED_UNDONE),
        (get(TWO, id=ids[0]), undone(GET, id=ids[0])),
        (attributes(TWO, id=ids[1]), undone(GET_ATTRIBUTES, id=ids[1])),
        (create(called("tap"), id=ids[2]), undone(CREATE, id=ids[2])),
        (locate("tap", id=ids[3]), undone(LOCATE, id=ids[3])),
        (destroy(TWO, id=ids[3]), failed(DESTROY, WRONG, id=ids[3])),
    ]
    answer = response(*[given for _, given in pairs])
    assert [len(given) for _, given in pairs] == [40, 56, 56, 64, 64, 80]
    s.card("L8 undone batch with IDs", *pairs, (create(id=b"never"), None), option=UNDO)
    s.output("L8 output after the undone batch", 0, answer + b"\xFF" * (6360 - len(answer)))
    as_before(s, "L8 after the undone batch with IDs")


def cards_of_undo_in_a_large_table(s):
    s.about("L8: 256 places, all of them taken but the last: the key that an undone Create had put there, and the last byte of both buffers.")
    s.blank(LARGE)
    s.put(0, lead(255, places=LARGE)[:4])
    s.put(line_at(0), b"".join(line(serial, 2) for serial in range(1, 256)))
    last = name_of(256)
    full = [(create(bits=256), undone(CREATE)), (activate(), undone(ACTIVATE)), (revoke(name_of(255), 1), undone(REVOKE))]
    s.card("L8 256 places, undone", *full, (create(), failed(CREATE, SERVER_LIMIT_EXCEEDED)), option=UNDO)
    for view, where in [(s.table, "table"), (s.second, "second buffer")]:
        view(f"L8 256 places, lead of the {where}", 0, lead(255, places=LARGE))
        view(f"L8 256 places, lines 254 and 255 of the {where}", line_at(254), line(255, 2) + bytes(16))
        view(f"L8 256 places, bodies 254 and 255 of the {where}", s.body_at(254), bytes(2 * BODY_SIZE))
    s.second("L8 256 places undone, past the second buffer", size_of(LARGE), FRESH * 8)
    made = [(create(bits=256, mask=12), created(last)), (activate(), named(ACTIVATE, last)), (get(), handed(last, fresh(0, 32)))]
    s.card("L8 256 places, the 256th key", *made, option=UNDO)
    s.table("L8 256 places, line 255 then", line_at(255), line(256, 2, bits=256))
    s.table("L8 256 places, body 255 then", s.body_at(255), body(mask=12, material=fresh(0, 32), activation=1))
    s.second("L8 256 places, the place before", s.body_at(255), bytes(BODY_SIZE))


# ---- refusals


def key_to_activate(s):
    """A Pre-Active key, so that any Activate that were carried out would show."""
    s.blank()
    s.put(0, lead(1)[:4])
    s.key(0, line(1, 1), body(0, 0, 4, fresh(0, 16)))


def cards_of_refusals_1_to_4(s):
    s.about("Refusals 1 and 2: output room below 6,360 bytes; strip not 512 bytes. The table shows that nothing was carried out.")
    key_to_activate(s)
    good = request(activate(ONE))
    s.say("room 0")
    s.refused("refusal 1, no room", good, 1)
    for room in (4824, 5336, 6359):
        s.say(f"room {room}")
        s.refused(f"refusal 1, room {room}", good, 1)
    s.table("line after refusal 1", line_at(0), line(1, 1))
    s.say("room 6360")
    for length in (0, 511, 513, 1024):
        s.say(f"strip {length}")
        s.refused(f"refusal 2, strip of {length}", good, 2)
    s.table("line after refusal 2", line_at(0), line(1, 1))
    s.say("strip 512")
    s.about("Refusal 3: the table's size. That of 01, 4,624 bytes, and that of L3, 5,648, are none any more.")
    for length in (0, 15, 4624, 5648, 8192, 8207, 8209):
        s.say(f"size {length}")
        s.refused(f"refusal 3, table of {length} bytes", good, 3)
    s.say("size 8208")
    s.table("line after refusal 3", line_at(0), line(1, 1))
    s.about("Refusal 4: request empty, or above 4,096 bytes; one of 4,096 is read.")
    s.refused("refusal 4, empty request", b"", 4)
    long = ask(0x3B, byte_string(OTHER, bytes(3984)))
    assert len(request(long)) == 4096
    s.fails("request of 4096 bytes", long, 0x3B, NOT_SUPPORTED)
    s.refused("refusal 4, request of 4097 bytes", request(long) + b"\0", 4)
    s.table("line after refusal 4", line_at(0), line(1, 1))
    s.about("The whole table after these refusals; then the room may be larger than it must.")
    whole = lead(1) + line(1, 1).ljust(16 * SMALL, b"\0") + body(0, 0, 4, fresh(0, 16)).ljust(BODY_SIZE * SMALL, b"\0")
    s.table("whole table after refusals 1 to 4", 0, whole)
    s.say("room 8192")
    s.card("room 8192", (activate(ONE), named(ACTIVATE, ONE)))


def faults_of_dates():
    """L3's, on the same table, of which the latest clock is 1: the key at place 1 is Pre-Active, and that at place 3 Active."""
    return [
        ("a free body with an activation date", (body_at(5) + ACTIVATION_IN, numbers(1))),
        ("a free body with a deactivation date", (body_at(63) + DEACTIVATION_IN, numbers(1))),
        ("activation date -1", (body_at(1) + ACTIVATION_IN, numbers(2**64 - 1))),
        ("activation date -2^63 of a destroyed key", (body_at(2) + ACTIVATION_IN, numbers(2**63))),
        ("deactivation date -1", (body_at(1) + DEACTIVATION_IN, numbers(2**64 - 1))),
        ("deactivation date -2^63 of a destroyed key", (body_at(2) + DEACTIVATION_IN, numbers(2**63))),
        ("latest clock -1", (LATEST_CLOCK, numbers(2**64 - 1))),
        ("latest clock -2^63", (LATEST_CLOCK, numbers(2**63))),
        ("deactivation date before the activation date", (body_at(1) + ACTIVATION_IN, numbers(9, 8))),
        ("activation date of an Active key after the latest clock", (body_at(3) + ACTIVATION_IN, numbers(2))),
        ("activation date 1 of an Active key, latest clock 0", (body_at(3) + ACTIVATION_IN, numbers(1)), (LATEST_CLOCK, numbers(0))),
    ]


def faults_of_names():
    """L6's, on the same table, whose keys have no names but these."""
    at = lambda place: body_at(place) + NAME_IN
    pump = name_field("pump")
    return [
        ("L6 unsound, a free body with a name", (at(5), name_field("p"))),
        ("L6 unsound, a free body with the length of a name", (at(5), b"\1")),
        ("L6 unsound, a free body with a name byte", (at(63) + 39, b"\1")),
        ("L6 unsound, a name of 33 bytes", (at(3), b"\x21")),
        ("L6 unsound, a name of 255 bytes", (at(2), b"\xff")),
        ("L6 unsound, the first of a name's zeros", (at(3) + 1, b"\1")),
        ("L6 unsound, the last of a name's zeros", (at(3), pump), (at(3) + 7, b"\x80")),
        ("L6 unsound, a byte in the place of no name", (at(3) + 8, b"p")),
        ("L6 unsound, a byte right behind a name", (at(3), pump), (at(3) + 12, b"\1")),
        ("L6 unsound, a byte at the end behind a name", (at(2), name_field("x" * 31)), (at(2) + 39, b"x")),
        ("L6 unsound, a name that is a tail alone", (at(3), name_field(b"\x80"))),
        ("L6 unsound, a name that is overlong", (at(3), name_field(b"\xc1\xbf"))),
        ("L6 unsound, a name with a surrogate", (at(2), name_field(b"pump \xed\xa0\x80"))),
        ("L6 unsound, a name above 10FFFF", (at(3), name_field(b"\xf4\x90\x80\x80"))),
        ("L6 unsound, a name cut by its length", (at(3), name_field(b"pump \xc3"))),
        ("L6 unsound, a name cut by its length, the tail behind it", (at(3), name_field("pump é")), (at(3), b"\6")),
        ("L6 unsound, a name cut by the end of its room", (at(3), name_field(b"x" * 30 + b"\xe2\x82"))),
        ("L6 unsound, a name twice", (at(0), pump), (at(3), pump)),
        ("L6 unsound, a name twice and another between", (at(0), pump), (at(1), name_field("tap")), (at(3), pump)),
        ("L6 unsound, a name twice, one of a destroyed key", (at(2), pump), (at(3), pump)),
        ("L6 unsound, a name of 32 bytes twice", (at(0), name_field(LONG)), (at(1), name_field(LONG))),
    ]


def cards_of_unsound_tables(s):
    s.about(
        "Refusal 3: unsound tables. The first is sound: an Active key with a limit, its replacement, a destroyed key, and one of 192 bits without",
        "limit; serials 1 to 4, the last issued being 6. Each fault is laid over it and taken back.",
    )
    keys = [
        (line(1, 2, 1, 128, replacement=2), body(100, 40, 4, bytes([1] * 16))),
        (line(2, 1, 1, 128, replaced=1), body(100, 100, 4, bytes([2] * 16))),
        (line(3, 5), body()),
        (line(4, 2, 0, 192), body(0, 0, 4, bytes([4] * 24))),
    ]
    sound = lead(6) + b"".join(line for line, _ in keys).ljust(16 * SMALL, b"\0") + b"".join(body for _, body in keys).ljust(BODY_SIZE * SMALL, b"\0")
    s.blank()
    s.put(0, sound[: line_at(4)])
    s.put(body_at(0), sound[body_at(0) : body_at(4)])
    asked = attributes(FOUR)
    s.card("sound table of four keys", (asked, shown(FOUR, 2, 192)))
    trillion = 1_000_000_000_000
    for name, *faults in [
        ("place count 63", (4, unhex("0000003F"))),
        ("place count 65", (4, unhex("00000041"))),
        ("a free line with a state", (line_at(5) + 4, b"\1")),
        ("a free line with a link", (line_at(63) + 12, unhex("00000001"))),
        ("a free body with a count", (body_at(5) + 8, numbers(1))),
        ("a free body with a key byte", (body_at(63) + 55, b"\1")),
        ("zeros of a body", (body_at(3) + 20, unhex("00000001"))),
        ("a serial twice", (line_at(3), unhex("00000003"))),
        ("a serial above the last", (line_at(3), unhex("00000007"))),
        ("last serial below one that stands", (0, unhex("00000003"))),
        ("state 0", (line_at(3) + 4, b"\0")),
        ("state 7", (line_at(3) + 4, b"\7")),
        ("length 0", (line_at(3) + 6, unhex("0000"))),
        ("length 191", (line_at(3) + 6, unhex("00BF"))),
        ("length 512", (line_at(3) + 6, unhex("0200"))),
        ("mask 01000000", (body_at(3) + 16, unhex("01000000"))),
        ("unit 3", (line_at(0) + 5, b"\3")),
        ("unit 0 with a total", (body_at(3), numbers(1, 0))),
        ("unit 0 with a count", (body_at(3), numbers(0, 1))),
        ("unit 1 with total 0", (line_at(3) + 5, b"\1")),
        ("total 1,000,000,000,001", (body_at(0), numbers(trillion + 1, 40))),
        ("total 2^63", (body_at(0), numbers(2**63, 40))),
        ("count above total", (body_at(0), numbers(100, 101))),
        ("key bytes past 192 bits", (body_at(3) + 24 + 24, b"\1")),
        ("key bytes past 128 bits", (body_at(0) + 24 + 16, b"\1")),
        ("a key byte in state 5", (body_at(2) + 24, b"\1")),
        ("a key byte in state 6", (line_at(2) + 4, b"\6"), (body_at(2) + 24 + 15, b"\1")),
        ("replaced serial its own", (line_at(3) + 8, unhex("00000004"))),
        ("replaced serial above its own", (line_at(3) + 8, unhex("00000005"))),
        ("replacement serial its own", (line_at(3) + 12, unhex("00000004"))),
        ("replacement serial below its own", (line_at(3) + 12, unhex("00000003"))),
        ("replacement serial above the last", (line_at(3) + 12, unhex("00000007"))),
        ("replaced serial of a key that does not name back", (line_at(3) + 8, unhex("00000003"))),
        ("old end of a link gone", (line_at(0) + 12, unhex("00000000"))),
        ("new end of a link gone", (line_at(1) + 8, unhex("00000000"))),
        *faults_of_dates(),
        *faults_of_names(),
    ]:
        for at, octets in faults:
            s.put(at, octets)
        s.refused(name if name.startswith("L6") else f"refusal 3, {name}", request(asked), 3)
        for at, octets in reversed(faults):
            s.put(at, sound[at : at + len(octets)])
    s.table("table of four keys as it was", 0, sound[: line_at(5)])
    s.card("sound table of four keys again", (asked, shown(FOUR, 2, 192)))
    s.about("Sound: links to serials that were issued and stand no more; a Pre-Active key with nothing left.")
    s.put(line_at(3) + 12, unhex("00000006"))
    s.put(body_at(1) + 8, numbers(0))
    s.card("sound table with a link to a serial that is gone", (asked, shown(FOUR, 2, 192, replacement=SIX)))


def cards_of_sound_dates(s):
    s.about("L3, sound: dates that are the same, an Active key since the latest clock, a compromised and a destroyed key that would start later.")
    dated_keys(s, 1, (1, 9, 9), (2, 1), (4, 2**63 - 1), (5, 9, 2**63 - 1))
    s.card("sound table with dates at their edges", (attributes(TWO), shown(TWO, 2, limit=(100, 50, 2), activation=1)))


def cards_of_sound_names(s):
    s.about("L6, sound: names that differ in a zero byte at the end, in the last of 32 bytes, in their length alone; a destroyed key with a name, keys without.")
    names = ["p", "p\0", LONG, LONG[:31] + "x", LONG[:31], "\0", "\0" * 32, "\U0010ffff", ""]
    s.blank()
    s.put(0, lead(9)[:4])
    s.put(line_at(0), b"".join(line(serial, 5 if serial == 3 else 2) for serial in range(1, 10)))
    s.put(body_at(0), b"".join(body(letters=letters) for letters in names))
    pairs = [(locate(letters), found(name_of(serial))) for serial, letters in enumerate(names[:8], 1)]
    s.card("L6 sound table with names", *pairs, (attributes("00000009"), shown("00000009", 2)))


def cards_of_malformed_requests(s):
    s.about("Refusal 5: TTLV malformed, anywhere in the request; the payload of an unsupported operation is no exception.")
    key_to_activate(s)
    good = request(activate(ONE))
    s.refused("refusal 5, a byte after the request", good + b"\0", 5)
    s.refused("refusal 5, an item after the request", good + integer(OTHER, 1), 5)
    s.refused("refusal 5, last byte missing", good[:-1], 5)
    s.refused("refusal 5, one byte", good[:1], 5)
    s.refused("refusal 5, message length one item short", good[:4] + (len(good) - 24).to_bytes(4, "big") + good[8:], 5)
    s.refused("refusal 5, message length FFFFFFFF", good[:4] + unhex("FFFFFFFF") + good[8:], 5)
    long_count = PRINTED_CREATE.replace(unhex("42000D02 00000004 00000001 00000000"), unhex("42000D02 00000004 00000001 00000001"))
    assert long_count != PRINTED_CREATE
    s.refused("refusal 5, padding of the Batch Count not zero", long_count, 5)
    for name, item in [
        ("Boolean 2", boolean(OTHER, 2)),
        ("text with E9", text(OTHER, b"\xe9")),
        ("type 0C", ttlv(OTHER, 0x0C, bytes(8))),
        ("tag 540001", ttlv(0x540001, 0x02, bytes(4))),
        ("Integer of 8 bytes", ttlv(OTHER, 0x02, bytes(8))),
        ("Long Integer of 4 bytes", ttlv(OTHER, 0x03, bytes(4))),
        ("Big Integer of no bytes", ttlv(OTHER, 0x04, b"")),
        ("padding of a text not zero", text(OTHER, "abc")[:-1] + b"\1"),
        ("padding of a Byte String not zero", byte_string(OTHER, b"abc")[:-1] + b"\1"),
    ]:
        s.refused(f"refusal 5, {name} in a payload", request(ask(0x3B, item)), 5)
    s.fails("text with 00 to 7F in a payload", ask(0x3B, text(OTHER, bytes(range(0x80)))), 0x3B, NOT_SUPPORTED)
    s.table("line after refusal 5", line_at(0), line(1, 1))


def cards_of_wrong_frames(s):
    s.about("Refusal 6: frame wrong. Fields stand in the order given, and nothing else may appear.")
    key_to_activate(s)
    item = activate(ONE)
    operation, payload = enumeration(OPERATION, ACTIVATE), structure(REQUEST_PAYLOAD, identifier(ONE))
    major, minor = integer(PROTOCOL_VERSION_MAJOR, 2), integer(PROTOCOL_VERSION_MINOR, 1)
    version, count = structure(PROTOCOL_VERSION, major, minor), integer(BATCH_COUNT, 1)
    option = enumeration(BATCH_ERROR_CONTINUATION_OPTION, STOP)
    head = header((2, 1), None, 1)
    message = lambda *parts: structure(REQUEST_MESSAGE, *parts)
    headed = lambda *fields: message(structure(REQUEST_HEADER, *fields), item)
    of = lambda *fields: message(head, structure(BATCH_ITEM, *fields))
    id = lambda length: byte_string(UNIQUE_BATCH_ITEM_ID, bytes(length))
    for name, octets in [
        ("an Integer", integer(OTHER, 8)),
        ("a Response Message", structure(RESPONSE_MESSAGE, head, item)),
        ("an empty message", message()),
        ("no header", message(item)),
        ("no items", message(head)),
        ("no items, Batch Count 0", message(header((2, 1), None, 0))),
        ("header after the item", message(item, head)),
        ("two headers", message(head, head, item)),
        ("no version", headed(count)),
        ("no Batch Count", headed(version)),
        ("Batch Count before the version", headed(count, version)),
        ("Batch Count before the option", headed(version, count, option)),
        ("Batch Count as Enumeration", headed(version, enumeration(BATCH_COUNT, 1))),
        ("option as Integer", headed(version, integer(BATCH_ERROR_CONTINUATION_OPTION, 2), count)),
        ("a Time Stamp in the header", headed(version, date_time(TIME_STAMP, 0), count)),
        ("version without minor", headed(structure(PROTOCOL_VERSION, major), count)),
        ("minor before major", headed(structure(PROTOCOL_VERSION, minor, major), count)),
        ("major as Enumeration", headed(structure(PROTOCOL_VERSION, enumeration(PROTOCOL_VERSION_MAJOR, 2), minor), count)),
        ("no operation", of(payload)),
        ("no payload", of(operation)),
        ("payload as Byte String", of(operation, byte_string(REQUEST_PAYLOAD, bytes(8)))),
        ("payload before the operation", of(payload, operation)),
        ("two payloads", of(operation, payload, payload)),
        ("operation as Integer", of(integer(OPERATION, ACTIVATE), payload)),
        ("ID of no bytes", of(operation, id(0), payload)),
        ("ID of 17 bytes", of(operation, id(17), payload)),
        ("ID as Text String", of(operation, text(UNIQUE_BATCH_ITEM_ID, "one"), payload)),
        ("ID after the payload", of(operation, payload, id(1))),
        ("fault in item 18", request(*[ask(0x3B)] * 17, structure(BATCH_ITEM, operation))),
    ]:
        s.refused(f"refusal 6, {name}", octets, 6)
    s.table("line after refusal 6", line_at(0), line(1, 1))


def cards_of_refusals_7_to_9(s):
    s.about("Refusal 7: version not 2.1.")
    key_to_activate(s)
    item = activate(ONE)
    for version in [(2, 0), (1, 4), (2, 2), (3, 1), (0, 0), (-2, 1)]:
        s.refused(f"refusal 7, version {version[0]}.{version[1]}", request(item, version=version), 7)
    s.table("line after refusal 7", line_at(0), line(1, 1))
    s.about("Refusal 8: Batch Count not 1 to 16, or not the number of items.")
    for count in (0, 2, 16, 17, -1):
        s.refused(f"refusal 8, Batch Count {count} with one item", request(item, count=count), 8)
    s.refused("refusal 8, Batch Count 1 with two items", request(item, item, count=1), 8)
    s.refused("refusal 8, 125 items", request(*[ask(0x3B)] * 125), 8)
    s.table("line after refusal 8", line_at(0), line(1, 1))
    s.about("Refusal 9: option not 1, 2 or 3 (L8).")
    for option in (0, 4, 0x103, 0x80000003, 0xFFFFFFFF):
        s.refused(f"refusal 9, option {option}", request(item, option=option), 9)
    s.table("line after refusal 9", line_at(0), line(1, 1))
    s.output("output after refusals as it was", 0, b"\xFF" * 8)


def cards_of_the_lowest_number(s):
    s.about("The lowest number that applies is given: all faults at once, then the lowest taken away, one after the other.")
    key_to_activate(s)
    item = activate(ONE)
    s.put(7, b"\x3f")
    s.say("clock 0")
    s.say("room 6359")
    s.say("strip 511")
    s.say("undo 8207")
    s.refused("lowest of 1, 2, 3, 4, 10 and 11", b"", 1)
    s.say("room 6360")
    s.refused("lowest of 2, 3, 4, 10 and 11", b"", 2)
    s.say("strip 512")
    s.refused("lowest of 3, 4, 10 and 11", b"", 3)
    s.put(7, b"\x40")
    wrong = dict(option=4, version=(2, 0), count=2)
    s.refused("lowest of 4, 5, 10 and 11", bytes(4097), 4)
    no_frame = structure(BATCH_ITEM, boolean(OTHER, 2))
    s.refused("lowest of 5 to 11", request(no_frame, **wrong), 5)
    no_frame = structure(BATCH_ITEM, boolean(OTHER, 1))
    s.refused("lowest of 6 to 11", request(no_frame, **wrong), 6)
    s.refused("lowest of 7 to 11", request(item, **wrong), 7)
    s.refused("lowest of 8 to 11", request(item, option=4, count=2), 8)
    s.refused("lowest of 9, 10 and 11", request(item, option=4), 9)
    for option in (CONTINUE, STOP, UNDO):
        s.refused(f"lowest of 10 and 11, option {option}", request(item, option=option), 10)
    s.say("clock 1")
    s.refused("11 alone", request(item, option=CONTINUE), 11)
    s.say("clock 0")
    s.say("undo 8208")
    s.refused("10 alone", request(item, option=CONTINUE), 10)
    s.table("lead and line after refusals at clock 0", 0, lead(1, latest=0) + line(1, 1))
    s.second("second buffer after refusals", 0, b"\xEE" * 16)
    s.say("clock 1")
    s.card("none", (item, named(ACTIVATE, ONE)), option=CONTINUE)


# ---- L9: a limit only for a key that can apply protection

SIGN, ENCRYPT, MAC_GENERATE = 0x01, 0x04, 0x80
ALL_OTHERS = 0x00FFFF7A  # the 24 bits of a mask but these three
UNPROTECTED = (0x00, 0x02, 0x08, 0x40, 0x100, ALL_OTHERS)


def cards_of_masks_without_protection(s):
    s.about("L9: Create with Usage Limits and a mask with none of Sign (1), Encrypt (4) and MAC Generate (80): Invalid Field, and nothing is stored.")
    s.blank()
    for mask in UNPROTECTED:
        s.fails(f"L9 Create with a limit and mask {mask:08X}", create(limit(100, 2), mask=mask), CREATE, INVALID_FIELD)
    s.table("L9 lead and first line after limits without protection", 0, lead(0) + bytes(16))
    s.about("L9: the same masks without a limit.")
    s.card("L9 Create without a limit", *[(create(mask=mask), created(name_of(serial))) for serial, mask in enumerate(UNPROTECTED, 1)])
    s.table("L9 bodies without a limit", body_at(0), b"".join(body(0, 0, mask, fresh(item, 16)) for item, mask in enumerate(UNPROTECTED)))


def cards_of_masks_with_protection(s):
    s.about("L9: one of the three is enough, alone, with the others of them, and with all other bits.")
    s.blank()
    masks = [SIGN, ENCRYPT, MAC_GENERATE, 0x85, 0x00FFFFFF, ALL_OTHERS + SIGN, ALL_OTHERS + ENCRYPT, ALL_OTHERS + MAC_GENERATE]
    for serial, mask in enumerate(masks, 1):
        s.card(f"L9 Create with a limit and mask {mask:08X}", (create(limit(100, 2), mask=mask), created(name_of(serial))))
    s.table("L9 lines with a limit", line_at(0), b"".join(line(serial, 1, 2) for serial in range(1, 9)) + bytes(16))
    s.table("L9 bodies with a limit", body_at(0), b"".join(body(100, 100, mask, fresh(0, 16)) for mask in masks))
    s.about("L9: each of the 24 bits alone, under Continue: the three succeed, and no other.")
    s.blank()
    answers = {SIGN: created(ONE), ENCRYPT: created(TWO), MAC_GENERATE: created(THREE)}
    pairs = [(create(limit(9, 1), mask=1 << bit), answers.get(1 << bit, failed(CREATE, INVALID_FIELD))) for bit in range(24)]
    s.card("L9 bits 0 to 15 alone", *pairs[:16], option=CONTINUE)
    s.card("L9 bits 16 to 23 alone", *pairs[16:], option=CONTINUE)
    s.table("L9 lead and lines after each bit alone", 0, lead(3) + b"".join(line(serial, 1, 1) for serial in (1, 2, 3)) + bytes(16))
    made = [(SIGN, 0), (ENCRYPT, 2), (MAC_GENERATE, 7)]
    s.table("L9 bodies after each bit alone", body_at(0), b"".join(body(9, 9, mask, fresh(item, 16)) for mask, item in made))


def cards_of_the_order_of_limits(s):
    s.about("L9: Invalid Field is told with Create's other values: before a name that is taken, and before a table that is full or has no serial left.")
    full_table(s)
    s.put(body_at(0) + NAME_IN, name_field("pump"))
    s.card(
        "L9 full table, a limit without protection",
        (create(limit(9, 1), mask=8), failed(CREATE, INVALID_FIELD)),
        (create(limit(9, 1), called("pump"), mask=8), failed(CREATE, INVALID_FIELD)),
        (create(limit(9, 1), called("pump"), mask=ENCRYPT), failed(CREATE, NON_UNIQUE_NAME)),
        (create(called("pump"), mask=8), failed(CREATE, NON_UNIQUE_NAME)),
        (create(limit(9, 1), mask=ENCRYPT), failed(CREATE, SERVER_LIMIT_EXCEEDED)),
        (create(mask=8), failed(CREATE, SERVER_LIMIT_EXCEEDED)),
        option=CONTINUE,
    )
    s.table("L9 lead of the full table", 0, lead(64))
    s.blank()
    s.put(0, lead(0xFFFFFFFF)[:4])
    s.fails("L9 last serial FFFFFFFF, a limit without protection", create(limit(9, 1), mask=8), CREATE, INVALID_FIELD)
    s.about("L9: the name of a Create that failed so is not taken. Under Stop nothing behind it is answered.")
    s.blank()
    s.card(
        "L9 a name with a limit without protection",
        (create(limit(9, 1), starts(5), ends(9), called("tap"), mask=8), failed(CREATE, INVALID_FIELD)),
        (locate("tap"), found_none()),
        (create(limit(9, 1), starts(5), ends(9), called("tap"), mask=MAC_GENERATE), created(ONE)),
        (locate("tap"), found(ONE)),
        option=CONTINUE,
    )
    s.table("L9 body with a limit, dates and a name", body_at(0), body(9, 9, MAC_GENERATE, fresh(2, 16), 5, 9, "tap"))
    s.card("L9 a limit without protection, Stop", (create(limit(9, 1), mask=2), failed(CREATE, INVALID_FIELD)), (locate("tap"), None), option=STOP)


def cards_of_old_limits(s):
    s.about("L9: tables that hold such keys stay sound: keys 1 to 3, Active, of 100 with 50 left, with masks 8, 0 and all others. They are shown and granted.")
    s.blank()
    s.put(0, lead(3)[:4])
    masks = [0x08, 0x00, ALL_OTHERS]
    for place, mask in enumerate(masks):
        s.key(place, line(place + 1, 2, 2), body(100, 50, mask, material(2)))
    names = [ONE, TWO, THREE]
    s.card("L9 old limits shown", *[(attributes(name), shown(name, 2, mask=mask, limit=(100, 50, 2))) for name, mask in zip(names, masks)])
    s.card("L9 old limits granted", *[(allocate(name, 50), named(ALLOCATE, name)) for name in names])
    s.fails("L9 old limit, one more", allocate(ONE, 1), ALLOCATE, USAGE_LIMIT_EXCEEDED)
    s.table("L9 bodies of old limits, granted", body_at(0), b"".join(body(100, 0, mask, material(2)) for mask in masks))
    s.about("L9: Re-key copies them, with a full count; their replacements are activated, granted and replaced in turn; a Create of the same fails in between.")
    heirs = [name_of(serial) for serial in (4, 5, 6)]
    s.card("L9 old limits replaced", *[(rekey(name), named(REKEY, heir)) for name, heir in zip(names, heirs)])
    s.table("L9 lines of old limits, replaced", line_at(0), b"".join(line(serial, 2, 2, replacement=serial + 3) for serial in (1, 2, 3)))
    s.table("L9 lines of their replacements", line_at(3), b"".join(line(serial, 1, 2, replaced=serial - 3) for serial in (4, 5, 6)) + bytes(16))
    s.table("L9 bodies of their replacements", body_at(3), b"".join(body(100, 100, mask, fresh(item, 16)) for item, mask in enumerate(masks)))
    s.card(
        "L9 the replacement of an old limit",
        (activate(FOUR), named(ACTIVATE, FOUR)),
        (allocate(FOUR, 60), named(ALLOCATE, FOUR)),
        (attributes(FOUR), shown(FOUR, 2, mask=8, limit=(100, 40, 2), replaced=ONE, activation=1)),
        (rekey(FIVE), named(REKEY, name_of(7))),
        (create(limit(100, 2), mask=8), failed(CREATE, INVALID_FIELD)),
        (attributes(name_of(7)), shown(name_of(7), 1, mask=0, limit=(100, 100, 2), replaced=FIVE)),
        option=CONTINUE,
    )
    s.table("L9 lead after old limits", 0, lead(7))


# ---- the script itself


def cards_of_bad_lines(s):
    s.about("What is no line of a script is told, and changes nothing.")
    s.blank()
    for line in [
        "bogus",
        "Blank",
        "blank 0",
        "blank 63",
        "blank 65",
        "blank 128",
        "blank 255",
        "blank 257",
        "blank 4294967360",
        "blank 18446744073709551616",
        "blank -64",
        "blank 256 ",
        "blank 64 256",
        "blank large",
        "put",
        "put 4",
        "put x 00",
        "put 4 0",
        "put 4 0G",
        "put 4 ff",
        "put 32784 00",
        "put 32783 0000",
        "put 18446744073709551616 00",
        "clock",
        "clock x",
        "clock -",
        "clock -0",
        "clock 9223372036854775808",
        "clock -9223372036854775809",
        "clock 18446744073709551616",
        "room",
        "room -1",
        "room 6360 ",
        "strip 5x",
        "size",
        "request 42",
        "request odd: 420",
        "request lower case: 4a",
        "table",
        "table no numbers: ",
        "table one number: 4",
        "table three numbers: 4 4 4",
        "table beyond: 32780 5",
        "table far beyond: 18446744073709551609 18446744073709551609",
        "output beyond: 8192 1",
        "undo",
        "undo -1",
        "undo 8208 ",
        "undo x",
        "Undo 8208",
        "second",
        "second one number: 4",
        "second beyond: 33792 1",
        "second far beyond: 18446744073709551609 18446744073709551609",
    ]:
        s.bad(line)
    s.table("table after bad lines", 0, lead(0, latest=0))
    s.about("More lent than there is.")
    for verb, most in [("room", 8192), ("strip", 1024), ("size", 32784), ("undo", 33792)]:
        s.blank()
        s.say(f"{verb} {most + 1}")
        s.name(f"{verb} {most + 1}")
        s.say(f"request {verb} {most + 1}: 42")
        s.expected.append(f"{verb} {most + 1}: no such {verb}")


def all_cards():
    s = Script()
    s.say("# The bench cards of document 01, and one success and each failure of each operation, each refusal, and what the table holds after some of them.")
    s.say("# Written by make_cards.py, together with what is expected of it. The commands, one a line; numbers are decimal, and blanks between bytes are skipped:")
    for command in [
        "blank                       a blank table of 64 places, an output full of FF, a second buffer full of EE, clock 1, room 6360, strip 512 (the bytes 0 to 255 twice), size and undo 8208",
        "blank COUNT                 the same with a table of 64 or 256 places, and its size: 8208 or 32784",
        "put OFFSET HEX              lays bytes over the table",
        "clock NUMBER                the clock from here on, from -2^63 to 2^63 - 1",
        "room NUMBER                 how many bytes of output are lent from here on, at most 8192",
        "strip NUMBER                how many bytes of the strip, at most 1024",
        "size NUMBER                 how many bytes of the table, at most 32784",
        "undo NUMBER                 how many bytes of the second buffer, at most 33792",
        "request NAME: HEX           serves a request of at most 8192 bytes, and prints NAME and the response, or the refusal",
        "table NAME: OFFSET LENGTH   prints NAME and bytes of the table",
        "output NAME: OFFSET LENGTH  prints NAME and bytes of the output",
        "second NAME: OFFSET LENGTH  prints NAME and bytes of the second buffer",
    ]:
        s.say("#   " + command)
    for cards in [
        cards_of_depth,
        cards_of_grants,
        cards_of_the_end,
        cards_of_rekey_twice,
        cards_of_bad_create,
        cards_of_room_and_batch,
        cards_of_a_full_table,
        cards_of_the_last_serial,
        cards_of_152_bytes,
        cards_of_create,
        cards_of_rekey,
        cards_of_allocation,
        cards_of_activate,
        cards_of_revoke,
        cards_of_destroy,
        cards_of_single_changes,
        cards_of_attributes,
        cards_of_get,
        cards_of_other_operations,
        cards_of_identifiers,
        cards_of_the_placeholder,
        cards_of_batches,
        cards_of_clocks,
        cards_of_a_clock_that_goes_back,
        cards_of_clocks_at_their_edges,
        cards_of_clocks_that_are_not_stored,
        cards_of_create_with_dates,
        cards_of_create_with_wrong_dates,
        cards_of_due_changes,
        cards_of_due_changes_everywhere,
        cards_of_dates_in_one_batch,
        cards_of_activate_with_dates,
        cards_of_revoke_with_dates,
        cards_of_dates_kept,
        cards_of_attributes_with_dates,
        cards_of_rekey_with_dates,
        cards_of_rekey_in_one_batch,
        cards_of_offset,
        cards_of_offset_and_the_clock,
        cards_of_offset_alone,
        cards_of_offset_past_the_largest_date,
        cards_of_the_order_of_rekey,
        cards_of_offset_shapes,
        cards_of_characters,
        cards_of_other_letters,
        cards_of_no_text,
        cards_of_texts_elsewhere,
        cards_of_names,
        cards_of_wrong_names,
        cards_of_taken_names,
        cards_of_names_alike,
        cards_of_locate,
        cards_of_moved_names,
        cards_of_names_and_places,
        cards_of_place_counts,
        cards_of_a_large_table,
        cards_of_256_keys,
        cards_of_due_changes_in_a_large_table,
        cards_of_undone_items,
        cards_of_the_failed_item,
        cards_of_where_it_fails,
        cards_of_a_batch_that_passes,
        cards_of_never_made,
        cards_of_serials_issued_again,
        cards_of_clock_and_dates_kept,
        cards_of_the_second_buffer,
        cards_of_sizes_of_the_second_buffer,
        cards_of_sixteen_items,
        cards_of_an_undone_response,
        cards_of_undo_in_a_large_table,
        cards_of_refusals_1_to_4,
        cards_of_unsound_tables,
        cards_of_sound_dates,
        cards_of_sound_names,
        cards_of_malformed_requests,
        cards_of_wrong_frames,
        cards_of_refusals_7_to_9,
        cards_of_the_lowest_number,
        cards_of_masks_without_protection,
        cards_of_masks_with_protection,
        cards_of_the_order_of_limits,
        cards_of_old_limits,
        cards_of_bad_lines,
    ]:
        cards(s)
    return s


def main():
    check_builders()
    s = all_cards()
    here = pathlib.Path(__file__).parent
    script = "\n".join(s.lines) + "\n"
    assert len(script) < SCRIPT_ROOM
    (here / "stdin").write_text(script)
    (here / "stdout").write_text("\n".join(s.expected) + "\n")
    requests = sum(line.startswith("request ") for line in s.lines)
    views = sum(line.startswith(("table ", "output ", "second ")) for line in s.lines)
    print(f"{requests} requests, {views} views of table, output or second buffer, {len(s.expected)} lines expected")


if __name__ == "__main__":
    main()
