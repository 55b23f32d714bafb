"""Makes crates/test_vectors/stdin and crates/test_vectors/stdout: cases for reading, writing, item records, check, clearance, runs and
earliest finishes.

    python3 tests/make_vectors.py            writes both files
    python3 tests/make_vectors.py --check    says whether they are what it would write
    python3 tests/make_vectors.py --before STDIN STDOUT    says whether the cases of the pair of files from before request #106 are among
                                             those that it would write, in their sequence and with their lines, the marks added; only
                                             where an item's map byte with bit 3 got 2 may there be another line

The expected lines come from tests/reference.py. The cases under "by hand" were worked out from document 01 and requests #101 and #103 to
#106: their lines stand here, and the reference has to agree with them.

A case is an op byte, the payload's length in 2 bytes, and the payload; numbers have the low byte first.

    op            payload                                      line
    1 read        a sheet                                      read .. or refused NUMBER PLACE
    2 write       instance, room (2), fill (1)                 written LENGTH HEX or refused NUMBER PLACE HEX
    3 record      k (8), a sheet                               record NUMBER PLACE [HEX]
    4 check       instance, packing                            feasible, not feasible or refused ..
    5 clearance   instance, packing, u (8), v (8), axis (1)    clearance N or refused ..
    6 rewrite     a sheet, read and then written               rewritten LENGTH HEX or refused ..
    7 valid       instance                                     valid, not valid
    8 run         a sheet                                      what the program prints, and an empty line
    9 finish      instance, allowance (4)                      finish ANSWER LENGTH STEPS and the packing, or refused ..

An instance is 365 bytes: container (6), item count (8), ten items (6 each), precedence count (8), ninety
precedences (3 each: u, v, lag), yard number (2), walkway (1), and for each of the ten items a byte: other than 0 where it may turn.
A packing is 70 bytes: ten times x, y, t, 2 bytes each, then ten marks.
A line `read` is WIDTH DEPTH SHIFTS items N and for each its measures, and `turn` where it may turn, precedences M and for each U V, and
`lag L` where L is above 0, yard NUMBER, `walkway W` where W is above 0, rest zero or not zero: whether anything past the counts is other
than 0, or may turn.
A write gets a room of that many bytes, all of them fill; its HEX is the room and the 4 fill bytes after it.
The ANSWER of a finish is 0 spent, 1 placed, 2 none; its packing is x, y, t, mark, ten times.
"""

import os
import sys

import reference

READ, WRITE, RECORD, CHECK, CLEARANCE, REWRITE, VALID, RUN, FINISH = range(1, 10)
KINDS = ["", "read", "write", "record", "check", "clearance", "rewrite", "valid", "run", "finish"]
GUARD = 4
MOST_ROOM = 400
MOST_STDIN = 2097152
MOST_PAYLOAD = 16384
GREATEST = 2 ** 32 - 1
ANSWERS = ["spent", "placed", "none"]

cases = []
lines = []


# Values and their bytes


def order(entries):
    """u, v and the lag, which may be left out."""
    return (list(entries) + [0])[:3]


def instance(container, items=(), precedences=(), yard=0, walkway=0, turn=()):
    """The instance with these entries, and 0 past them. A precedence is u, v or u, v, lag; `turn` has the items that may turn."""
    return {
        "container": list(container),
        "item_count": len(items),
        "items": [list(items[i]) if i < len(items) else [0, 0, 0] for i in range(10)],
        "may_turn": [int(i in turn) for i in range(10)],
        "precedence_count": len(precedences),
        "precedences": [order(precedences[i] if i < len(precedences) else [0, 0]) for i in range(90)],
        "yard_number": yard,
        "walkway": walkway,
    }


def copied(value):
    return {
        "container": list(value["container"]),
        "item_count": value["item_count"],
        "items": [list(item) for item in value["items"]],
        "may_turn": list(value["may_turn"]),
        "precedence_count": value["precedence_count"],
        "precedences": [list(precedence) for precedence in value["precedences"]],
        "yard_number": value["yard_number"],
        "walkway": value["walkway"],
    }


def marked(entries):
    """x, y, t and the mark, which may be left out."""
    return (list(entries) + [0])[:4]


def packing(*starts):
    """The packing with these entries, and 0 past them. An entry is x, y, t or x, y, t, mark."""
    return [marked(starts[i] if i < len(starts) else [0, 0, 0]) for i in range(10)]


def little(number, size):
    return number.to_bytes(size, "little")


def instance_bytes(value):
    out = b"".join(little(m, 2) for m in value["container"]) + little(value["item_count"], 8)
    for item in value["items"]:
        out += b"".join(little(m, 2) for m in item)
    out += little(value["precedence_count"], 8)
    for u, v, lag in value["precedences"]:
        out += bytes([u, v, lag])
    out += little(value["yard_number"], 2) + little(value["walkway"], 1) + bytes(value["may_turn"])
    assert len(out) == 365
    return out


def packing_bytes(positions):
    out = b"".join(little(start, 2) for x, y, t, _ in positions for start in (x, y, t)) + bytes(mark for _, _, _, mark in positions)
    assert len(out) == 70
    return out


# Cases, with the lines that the reference expects


def is_refused(answer):
    return isinstance(answer, tuple)


def refused(answer):
    return "refused %d %d" % answer


def read_line(sheet):
    value = reference.read(sheet)
    if is_refused(value):
        return refused(value)
    n = value["item_count"]
    m = value["precedence_count"]
    words = ["read"] + value["container"] + ["items", n]
    for item, may_turn in zip(value["items"][:n], value["may_turn"]):
        words += item + (["turn"] if may_turn else [])
    words += ["precedences", m]
    for u, v, lag in value["precedences"][:m]:
        words += [u, v] + (["lag", lag] if lag > 0 else [])
    words += ["yard", value["yard_number"]] + (["walkway", value["walkway"]] if value["walkway"] > 0 else [])
    rest = [entry for entries in value["items"][n:] + value["precedences"][m:] + [value["may_turn"][n:]] for entry in entries]
    words += ["rest", "not zero" if any(rest) else "zero"]
    return " ".join(str(word) for word in words)


def write_line(value, room, fill):
    answer = reference.write(value, room)
    if is_refused(answer):
        return refused(answer) + " " + bytes([fill] * (room + GUARD)).hex()
    after = bytes([fill] * (room - len(answer) + GUARD))
    return "written %d %s" % (len(answer), (answer + after).hex())


def record_line(sheet, k):
    part, refusal = reference.record(sheet, k)
    return ("record %d %d " % refusal + part.hex()).rstrip()


def check_line(value, positions):
    answer = reference.check(value, positions)
    if is_refused(answer):
        return refused(answer)
    return "feasible" if answer else "not feasible"


def clearance_line(value, positions, u, v, axis):
    answer = reference.clearance(value, positions, u, v, axis)
    if is_refused(answer):
        return refused(answer)
    return "clearance %d" % answer


def rewrite_line(sheet):
    value = reference.read(sheet)
    if is_refused(value):
        return refused(value)
    answer = reference.write(value, 352)
    assert answer == sheet
    return "rewritten %d %s" % (len(answer), answer.hex())


def run_line(sheet):
    return reference.program(sheet)


def finish_line(value, allowance):
    answer = reference.finish(value, allowance)
    if is_refused(answer):
        return refused(answer)
    numbers = [ANSWERS.index(answer["answer"]), answer["length"], answer["steps"]]
    return " ".join(["finish"] + [str(number) for number in numbers + sum(answer["packing"], [])])


def add(op, payload, line, expected):
    assert len(payload) <= MOST_PAYLOAD
    assert expected is None or line == expected, (KINDS[op], payload.hex()[:200], line, expected)
    cases.append((op, payload))
    lines.append(line)


def add_read(sheet, expected=None):
    add(READ, sheet, read_line(sheet), expected)


def add_write(value, room, expected=None, fill=0xA5):
    assert room <= MOST_ROOM
    add(WRITE, instance_bytes(value) + little(room, 2) + bytes([fill]), write_line(value, room, fill), expected)


def add_record(sheet, k, expected=None):
    add(RECORD, little(k, 8) + sheet, record_line(sheet, k), expected)


def add_check(value, positions, expected=None):
    add(CHECK, instance_bytes(value) + packing_bytes(positions), check_line(value, positions), expected)


def add_clearance(value, positions, u, v, axis, expected=None):
    payload = instance_bytes(value) + packing_bytes(positions) + little(u, 8) + little(v, 8) + bytes([axis])
    add(CLEARANCE, payload, clearance_line(value, positions, u, v, axis), expected)


def add_rewrite(sheet, expected=None):
    add(REWRITE, sheet, rewrite_line(sheet), expected)


def add_valid(value, expected=None):
    add(VALID, instance_bytes(value), "valid" if reference.valid(value) else "not valid", expected)


def add_run(sheet, expected=None):
    add(RUN, sheet, run_line(sheet), expected)


def add_finish(value, allowance, expected=None):
    add(FINISH, instance_bytes(value) + little(allowance, 4), finish_line(value, allowance), expected)


# By hand: reading

ALL_PAIRS = [(u, v) for u in range(10) for v in range(10) if u != v]
EXAMPLE = bytes.fromhex("1D 02 00 02 00 02 01 02 00 00 01 01 00")
LONGEST = bytes.fromhex(
    "3F FF0F FF0F FF0F 0A" + " 07 FF0F FF0F FF0F" * 10 + " 5A"
    " 0001 0002 0003 0004 0005 0006 0007 0008 0009 0100 0102 0103 0104 0105 0106 0107 0108 0109"
    " 0200 0201 0203 0204 0205 0206 0207 0208 0209 0300 0301 0302 0304 0305 0306 0307 0308 0309"
    " 0400 0401 0402 0403 0405 0406 0407 0408 0409 0500 0501 0502 0503 0504 0506 0507 0508 0509"
    " 0600 0601 0602 0603 0604 0605 0607 0608 0609 0700 0701 0702 0703 0704 0705 0706 0708 0709"
    " 0800 0801 0802 0803 0804 0805 0806 0807 0809 0900 0901 0902 0903 0904 0905 0906 0907 0908"
    " FFFF"
)
FULL = instance([4095] * 3, [[4095] * 3] * 10, ALL_PAIRS, 65535)

READ_BY_HAND = [
    ("", "refused 1 0"),
    ("00", "read 1 1 1 items 0 precedences 0 yard 0 rest zero"),
    ("1D 02 00 02 00 02 01 02 00 00 01 01 00", "read 2 1 2 items 2 2 1 1 1 1 1 precedences 1 1 0 yard 0 rest zero"),
    # the map byte
    ("40", "refused 11 1"),
    ("80", "refused 1 1"),
    ("C0", "refused 11 1"),
    ("FF", "refused 1 1"),
    ("41 02 00", "refused 11 3"),
    ("48 00", "refused 4 1"),
    # the container
    ("01", "refused 1 1"),
    ("01 02", "refused 1 2"),
    ("01 00", "refused 1 2"),
    ("01 01", "refused 1 2"),
    ("01 00 00", "refused 3 1"),
    ("01 01 00", "refused 3 1"),
    ("01 02 00", "read 2 1 1 items 0 precedences 0 yard 0 rest zero"),
    ("01 00 01", "read 256 1 1 items 0 precedences 0 yard 0 rest zero"),
    ("01 01 01", "read 257 1 1 items 0 precedences 0 yard 0 rest zero"),
    ("01 FF 0F", "read 4095 1 1 items 0 precedences 0 yard 0 rest zero"),
    ("02 00 00", "refused 3 1"),
    ("02 01 00", "refused 3 1"),
    ("02 03 00", "read 1 3 1 items 0 precedences 0 yard 0 rest zero"),
    ("04 01 00", "refused 3 1"),
    ("04 34 02", "read 1 1 564 items 0 precedences 0 yard 0 rest zero"),
    ("03 02 00", "refused 1 3"),
    ("03 02 00 05", "refused 1 4"),
    ("03 02 00 01 00", "refused 3 3"),
    ("05 02 00 00 00", "refused 3 3"),
    ("06 03 00 04 00", "read 1 3 4 items 0 precedences 0 yard 0 rest zero"),
    ("07 02 00 03 00 00 00", "refused 3 5"),
    ("07 02 00 03 00 01 00", "refused 3 5"),
    ("07 02 00 03 00 02", "refused 1 6"),
    ("07 02 00 03 00 04 00", "read 2 3 4 items 0 precedences 0 yard 0 rest zero"),
    # items
    ("08", "refused 1 1"),
    ("08 00", "refused 4 1"),
    ("08 0B", "refused 4 1"),
    ("08 5B", "refused 4 1"),
    ("08 FF", "refused 4 1"),
    ("09 02 00 00", "refused 4 3"),
    ("0F 02 00 02 00 02 00 0B", "refused 4 7"),
    ("08 01", "refused 1 2"),
    ("08 0A", "refused 1 2"),
    ("08 01 00", "read 1 1 1 items 1 1 1 1 precedences 0 yard 0 rest zero"),
    ("08 02 00", "refused 1 3"),
    ("08 02 00 00", "read 1 1 1 items 2 1 1 1 1 1 1 precedences 0 yard 0 rest zero"),
    ("08 0A 00 00 00 00 00 00 00 00 00 00", "read 1 1 1 items 10" + " 1" * 30 + " precedences 0 yard 0 rest zero"),
    ("08 01 08", "read 1 1 1 items 1 1 1 1 turn precedences 0 yard 0 rest zero"),
    ("08 01 80", "refused 2 2"),
    ("08 01 0F", "refused 1 3"),
    ("08 02 08", "refused 1 3"),
    ("08 02 00 10", "refused 2 3"),
    ("08 02 01 09 00 20", "refused 2 5"),
    ("08 01 01", "refused 1 3"),
    ("08 01 01 02", "refused 1 4"),
    ("08 01 01 00", "refused 1 4"),
    ("08 01 01 00 00", "refused 3 3"),
    ("08 01 01 01 00", "refused 3 3"),
    ("08 01 02 01 00", "refused 3 3"),
    ("08 01 04 00 00", "refused 3 3"),
    ("08 01 03 02 00 01 00", "refused 3 5"),
    ("08 01 07 02 00 03 00 01 00", "refused 3 7"),
    ("08 02 01 02 00 04 01 00", "refused 3 6"),
    ("08 01 07 02 00 03 00 04 00", "read 1 1 1 items 1 2 3 4 precedences 0 yard 0 rest zero"),
    ("08 01 05 02 01 FF 0F", "read 1 1 1 items 1 258 1 4095 precedences 0 yard 0 rest zero"),
    # precedences
    ("10", "refused 1 1"),
    ("10 00", "refused 4 1"),
    ("10 5B", "refused 4 1"),
    ("10 FF", "refused 4 1"),
    ("10 01", "refused 1 2"),
    ("10 5A", "refused 1 2"),
    ("10 01 00", "refused 1 3"),
    ("10 01 00 00", "refused 5 2"),
    ("10 01 00 01", "refused 5 2"),
    ("11 02 00 01 00 01", "refused 5 4"),
    ("18 02 00 00", "refused 1 4"),
    ("18 02 00 00 00", "refused 4 4"),
    ("18 02 00 00 5B", "refused 4 4"),
    ("18 02 00 00 01", "refused 1 5"),
    ("18 02 00 00 01 00", "refused 1 6"),
    ("18 02 00 00 01 09", "refused 1 6"),
    ("18 02 00 00 01 00 02", "refused 5 5"),
    ("18 02 00 00 01 02 00", "refused 5 5"),
    ("18 02 00 00 01 FF 00", "refused 5 5"),
    ("18 02 00 00 01 00 00", "refused 5 5"),
    ("18 02 00 00 01 01 01", "refused 5 5"),
    ("18 02 00 00 02 00 01 01 01", "refused 5 7"),
    ("18 02 00 00 02 00 01 00 01", "refused 6 7"),
    ("18 02 00 00 02 01 00 00 01", "refused 6 7"),
    ("18 02 00 00 02 01 00 00 00", "refused 5 7"),
    ("18 02 00 00 02 01 00 00 02", "refused 5 7"),
    ("18 03 00 00 00 02 00 02 00 01", "refused 6 8"),
    ("18 03 00 00 00 03 00 02 01 00 00 01", "refused 6 10"),
    ("18 03 00 00 00 03 00 02 01 00 01", "refused 1 11"),
    ("18 02 00 00 01 00 01", "read 1 1 1 items 2 1 1 1 1 1 1 precedences 1 0 1 yard 0 rest zero"),
    ("18 02 00 00 02 00 01 01 00", "read 1 1 1 items 2 1 1 1 1 1 1 precedences 2 0 1 1 0 yard 0 rest zero"),
    (
        "18 03 00 00 00 03 00 01 01 02 02 00",
        "read 1 1 1 items 3 1 1 1 1 1 1 1 1 1 precedences 3 0 1 1 2 2 0 yard 0 rest zero",
    ),
    # the yard number
    ("20", "refused 1 1"),
    ("20 01", "refused 1 2"),
    ("20 00", "refused 1 2"),
    ("20 00 00", "refused 3 1"),
    ("20 01 00", "read 1 1 1 items 0 precedences 0 yard 1 rest zero"),
    ("20 00 01", "read 1 1 1 items 0 precedences 0 yard 256 rest zero"),
    ("20 FF FF", "read 1 1 1 items 0 precedences 0 yard 65535 rest zero"),
    ("28 01 00 00 00", "refused 3 3"),
    ("27 02 00 02 00 02 00 00 00", "refused 3 7"),
    ("28 01 00 00", "refused 1 4"),
    # bytes after the last field
    ("00 00", "refused 7 1"),
    ("00 FF", "refused 7 1"),
    ("01 02 00 00", "refused 7 3"),
    ("08 01 00 00", "refused 7 3"),
    ("20 01 00 00", "refused 7 3"),
    ("28 01 00 07 00 05 05 05", "refused 7 5"),
    ("1D 02 00 02 00 02 01 02 00 00 01 01 00 00", "refused 7 13"),
    # two faults: the first counts
    ("01 01 00 99", "refused 3 1"),
    ("09 01 00 00", "refused 3 1"),
    ("08 0B 08", "refused 4 1"),
    ("18 01 00 00 00", "refused 4 3"),
    ("38 02 00 00 01 01 01 00 00", "refused 5 5"),
]


def hand_read():
    for sheet, line in READ_BY_HAND:
        add_read(bytes.fromhex(sheet), line)
    assert len(LONGEST) == 261
    pairs = "".join(" %d %d" % pair for pair in ALL_PAIRS)
    full = "read 4095 4095 4095 items 10" + " 4095" * 30 + " precedences 90" + pairs + " yard 65535 rest zero"
    add_read(LONGEST, full)
    add_read(LONGEST + b"\0", "refused 7 261")
    add_read(LONGEST[:-1], "refused 1 260")
    add_read(LONGEST[:-2] + b"\0\0", "refused 3 259")
    add_read(LONGEST[:-4] + b"\x09\x09\xff\xff", "refused 5 257")
    add_read(LONGEST[:-4] + b"\x09\x07\xff\xff", "refused 6 257")
    add_read(LONGEST[:-4] + b"\x08\x09\xff\xff", "refused 6 257")
    # a map byte of 8 has no fields: the count of the orders is due in place of the first
    add_read(LONGEST[:71] + b"\x08" + LONGEST[72:], "refused 4 72")
    add_read(LONGEST[:76] + b"\x01\x00" + LONGEST[78:], "refused 3 76")
    add_read(LONGEST[:78] + b"\x5b" + LONGEST[79:], "refused 4 78")
    # long slices
    add_read(bytes(10000), "refused 7 1")
    add_read(b"\xff" * 10000, "refused 12 1")
    add_read(LONGEST + bytes(739), "refused 7 261")
    add_read(EXAMPLE + b"\xff" * 987, "refused 7 13")


# By hand: writing and validity


def filled(length, fill="a5"):
    return fill * (length + GUARD)


def hand_write():
    empty = instance([1, 1, 1])
    add_write(empty, 0, "refused 8 0 " + filled(0))
    add_write(empty, 1, "written 1 00" + filled(0))
    add_write(empty, 5, "written 1 00" + filled(4))
    add_write(empty, 5, "written 1 00" + filled(4, "00"), fill=0)
    add_write(empty, 5, "written 1 00" + filled(4, "ff"), fill=255)
    add_write(instance([2, 1, 1]), 3, "written 3 010200" + filled(0))
    add_write(instance([1, 258, 1]), 3, "written 3 020201" + filled(0))
    add_write(instance([1, 1, 4095]), 3, "written 3 04ff0f" + filled(0))
    add_write(instance([1, 1, 4095]), 2, "refused 8 0 " + filled(2))
    add_write(instance([1, 1, 1], yard=1), 3, "written 3 200100" + filled(0))
    add_write(instance([1, 1, 1], yard=256), 4, "written 3 200001" + filled(1))
    add_write(instance([1, 1, 1], [[1, 1, 1]]), 3, "written 3 080100" + filled(0))
    add_write(instance([1, 1, 1], [[1, 2, 1], [3, 1, 4]]), 10, "written 10 0802020200050300" + "0400" + filled(0))
    example = instance([2, 1, 2], [[2, 1, 1], [1, 1, 1]], [(1, 0)])
    add_write(example, 13, "written 13 1d020002000201020000010100" + filled(0))
    add_write(example, 12, "refused 8 0 " + filled(12))
    add_write(example, 14, "written 13 1d020002000201020000010100" + filled(1))
    add_write(example, 40, "written 13 1d020002000201020000010100" + filled(27))
    add_write(example, 0, "refused 8 0 " + filled(0))
    longest = LONGEST.hex()
    add_write(FULL, 261, "written 261 " + longest + filled(0))
    add_write(FULL, 260, "refused 8 0 " + filled(260))
    add_write(FULL, 262, "written 261 " + longest + filled(1))
    add_write(FULL, 300, "written 261 " + longest + filled(39))
    add_write(FULL, 300, "written 261 " + longest + filled(39, "00"), fill=0)
    # entries past the counts are no part of it
    past = copied(example)
    past["items"][2:] = [[0, 7, 65535] for _ in range(8)]
    past["precedences"][1:] = [[255, 255, 0] for _ in range(89)]
    add_write(past, 13, "written 13 1d020002000201020000010100" + filled(0))
    add_valid(past, "valid")
    for value in (empty, example, FULL):
        add_valid(value, "valid")
    circle = instance([3, 1, 3], [[1, 1, 1]] * 3, [(0, 1), (1, 2), (2, 0)])
    add_valid(circle, "valid")
    add_write(circle, 17, "written 16 1d03000300030000000300010102" + "0200" + filled(1))
    # 9 comes before 5 and 8
    for number, value in enumerate(refused_values()):
        room, u, axis = (262, 0, 0) if number % 2 == 0 else (0, 65535, 3)
        add_valid(value, "not valid")
        add_write(value, room, "refused 9 0 " + filled(room))
        add_check(value, packing(), "refused 9 0")
        add_clearance(value, packing(), u, 0, axis, "refused 9 0")


def changed(value, key, at, entry):
    value = copied(value)
    if key == "precedences":
        entry = order(entry)
    if at is None:
        value[key] = entry
    else:
        value[key][at] = entry
    return value


def refused_values():
    """Values that number 9 names, one fault each."""
    values = []
    for count in (11, 12, 256, 266, 65535):
        values.append(changed(FULL, "item_count", None, count))
    for count in (91, 92, 256, 346, 65535):
        values.append(changed(FULL, "precedence_count", None, count))
    for axis in range(3):
        measures = [2, 3, 4]
        measures[axis] = 0
        values.append(instance(measures))
        values.append(changed(FULL, "container", None, measures))
        for item in (0, 4, 9):
            values.append(changed(FULL, "items", item, measures))
    three = instance([9, 9, 9], [[1, 1, 1]] * 3, [(0, 1), (0, 2), (1, 0)])
    for at, pair in (
        (0, [3, 1]),
        (2, [3, 0]),
        (2, [255, 0]),
        (0, [0, 3]),
        (1, [0, 10]),
        (2, [1, 255]),
        (0, [0, 0]),
        (1, [0, 0]),
        (1, [1, 1]),
        (2, [2, 2]),
        (1, [0, 1]),
        (2, [0, 2]),
        (2, [0, 1]),
        (0, [0, 2]),
        (0, [2, 0]),
        (1, [2, 1]),
    ):
        values.append(changed(three, "precedences", at, pair))
    values.append(changed(FULL, "precedences", 89, [9, 9]))
    values.append(changed(FULL, "precedences", 89, [9, 7]))
    values.append(instance([1, 1, 1], [], [(0, 1)]))
    values.append(instance([1, 1, 1], [], [(0, 0)]))
    values.append(changed(FULL, "item_count", None, 9))
    values.append(changed(FULL, "item_count", None, 0))
    # counts whose low bytes alone are a count that stands
    for count in (2 ** 16 - 1, 2 ** 16, 2 ** 32, 2 ** 63, 2 ** 64 - 1):
        values.append(changed(FULL, "item_count", None, count))
        values.append(changed(instance([2, 3, 4]), "item_count", None, count))
        values.append(changed(FULL, "precedence_count", None, count))
    for part in (2 ** 16, 2 ** 32, 2 ** 63):
        values.append(changed(FULL, "item_count", None, part + 10))
        values.append(changed(FULL, "precedence_count", None, part + 90))
    return values


# By hand: item records


def hand_record():
    largest = 2 ** 64 - 1
    add_record(EXAMPLE, 0, "record 0 0 010200")
    add_record(EXAMPLE, 1, "record 0 0 00")
    for k in (2, 9, 10, 255, 256, 65535, 65536, 2 ** 32 - 1, 2 ** 32, 2 ** 63, largest):
        add_record(EXAMPLE, k, "record 5 0")
    add_record(b"", 0, "record 1 0")
    add_record(b"", largest, "record 1 0")
    add_record(b"\0", 0, "record 5 0")
    add_record(b"\0\0", 0, "record 7 1")
    add_record(bytes.fromhex("080100"), 0, "record 0 0 00")
    add_record(bytes.fromhex("080100"), 1, "record 5 0")
    add_record(bytes.fromhex("0803 05 0200 0300 00 02 0400"), 0, "record 0 0 0502000300")
    add_record(bytes.fromhex("0803 05 0200 0300 00 02 0400"), 1, "record 0 0 00")
    add_record(bytes.fromhex("0803 05 0200 0300 00 02 0400"), 2, "record 0 0 020400")
    add_record(bytes.fromhex("0803 05 0200 0300 00 02 0400"), 3, "record 5 0")
    for k in range(10):
        add_record(LONGEST, k, "record 0 0 07ff0fff0fff0f")
    for k in (10, 11, 256, 266, largest):
        add_record(LONGEST, k, "record 5 0")
    # the whole sheet is read first
    add_record(LONGEST + b"\0", 0, "record 7 261")
    add_record(LONGEST[:-1], 0, "record 1 260")
    add_record(LONGEST[:-1], largest, "record 1 260")
    add_record(bytes.fromhex("40"), 0, "record 11 1")
    add_record(bytes.fromhex("080108"), 0, "record 0 0 08")
    add_record(bytes.fromhex("08020080"), 0, "record 2 3")
    add_record(bytes.fromhex("010100"), 5, "record 3 1")
    add_record(bytes.fromhex("0802000101 00"), 0, "record 3 4")
    add_record(bytes.fromhex("0800"), 0, "record 4 1")
    add_record(bytes.fromhex("080B"), 0, "record 4 1")
    add_record(bytes.fromhex("1802000000"), 1, "record 4 4")
    add_record(bytes.fromhex("18020000010101"), 0, "record 5 5")
    add_record(bytes.fromhex("1802000002000100 01"), 0, "record 6 7")
    add_record(bytes.fromhex("2801000000"), 0, "record 3 3")
    add_record(bytes(1000), 0, "record 7 1")


# By hand: the check


def hand_check():
    def two(container, first, second, precedences, starts, line):
        add_check(instance(container, [first, second], precedences), packing(*starts), line)

    add_check(instance([1, 1, 1]), packing(), "feasible")
    add_check(instance([1, 1, 1]), packing([65535] * 3), "feasible")
    one = instance([3, 4, 5], [[2, 2, 2]])
    add_check(one, packing([0, 0, 0]), "feasible")
    add_check(one, packing([1, 2, 3]), "feasible")
    add_check(one, packing([2, 2, 3]), "not feasible")
    add_check(one, packing([1, 3, 3]), "not feasible")
    add_check(one, packing([1, 2, 4]), "not feasible")
    add_check(one, packing([65535, 0, 0]), "not feasible")
    add_check(instance([1, 1, 1], [[2, 1, 1]]), packing(), "not feasible")
    add_check(instance([1, 1, 1], [[1, 2, 1]]), packing(), "not feasible")
    add_check(instance([1, 1, 1], [[1, 1, 2]]), packing(), "not feasible")
    # positions past the count are ignored
    ignored = packing([1, 2, 3])
    ignored[1:] = [[65535, 65535, 65535, 0] for _ in range(9)]
    add_check(one, ignored, "feasible")
    ignored[1:] = [[1, 2, 3, 0] for _ in range(9)]
    add_check(one, ignored, "feasible")
    # touching, a gap, and an overlap by one, on each axis
    cube = [2, 2, 2]
    for axis in range(3):
        for start, line in ((2, "feasible"), (3, "feasible"), (1, "not feasible"), (0, "not feasible")):
            other = [0, 0, 0]
            other[axis] = start
            two([9, 9, 9], cube, cube, [], ([0, 0, 0], other), line)
            two([9, 9, 9], cube, cube, [], (other, [0, 0, 0]), line)
    # one inside the other, and a cross
    two([9, 9, 9], [5, 5, 5], [1, 1, 1], [], ([0, 0, 0], [2, 2, 2]), "not feasible")
    two([9, 9, 9], [5, 1, 5], [1, 5, 5], [], ([0, 2, 0], [2, 0, 0]), "not feasible")
    two([9, 9, 9], [5, 1, 5], [1, 5, 4], [], ([0, 2, 0], [2, 0, 5]), "feasible")
    # precedences
    two([2, 1, 2], [2, 1, 1], [1, 1, 1], [(1, 0)], ([0, 0, 1], [0, 0, 0]), "feasible")
    two([2, 1, 2], [2, 1, 1], [1, 1, 1], [(1, 0)], ([0, 0, 0], [0, 0, 1]), "not feasible")
    two([2, 1, 2], [2, 1, 1], [1, 1, 1], [], ([0, 0, 0], [0, 0, 1]), "feasible")
    two([4, 1, 9], cube[:1] + [1, 2], [2, 1, 2], [(0, 1)], ([0, 0, 0], [2, 0, 2]), "feasible")
    two([4, 1, 9], cube[:1] + [1, 2], [2, 1, 2], [(0, 1)], ([0, 0, 0], [2, 0, 1]), "not feasible")
    two([4, 1, 9], cube[:1] + [1, 2], [2, 1, 2], [(0, 1)], ([0, 0, 0], [2, 0, 0]), "not feasible")
    two([4, 1, 9], cube[:1] + [1, 2], [2, 1, 2], [(0, 1)], ([0, 0, 0], [2, 0, 7]), "feasible")
    two([4, 1, 9], [2, 1, 2], [2, 1, 2], [(0, 1), (1, 0)], ([0, 0, 0], [2, 0, 2]), "not feasible")
    circle = instance([3, 1, 9], [[1, 1, 1]] * 3, [(0, 1), (1, 2), (2, 0)])
    add_check(circle, packing([0, 0, 0], [1, 0, 1], [2, 0, 2]), "not feasible")
    chain = instance([3, 1, 9], [[1, 1, 1]] * 3, [(0, 1), (1, 2)])
    add_check(chain, packing([0, 0, 0], [1, 0, 1], [2, 0, 2]), "feasible")
    add_check(chain, packing([0, 0, 1], [1, 0, 1], [2, 0, 2]), "not feasible")
    add_check(chain, packing([0, 0, 0], [1, 0, 2], [2, 0, 2]), "not feasible")
    # precedences past the count are ignored
    ignored = instance([3, 1, 9], [[1, 1, 1]] * 2)
    ignored["precedences"] = [[0, 1, 0] for _ in range(90)]
    add_check(ignored, packing([0, 0, 0], [1, 0, 0]), "feasible")
    # sums above 4,095 and above 65,535
    most = [4095] * 3
    add_check(instance(most, [most]), packing([0, 0, 0]), "feasible")
    for axis in range(3):
        start = [0, 0, 0]
        start[axis] = 1
        add_check(instance(most, [most]), packing(start), "not feasible")
        start[axis] = 65535
        add_check(instance(most, [most]), packing(start), "not feasible")
        small = [1, 1, 1]
        add_check(instance(most, [small]), packing(start), "not feasible")
        start[axis] = 4094
        add_check(instance(most, [small]), packing(start), "feasible")
    two([4095, 1, 4095], [1, 1, 4095], [1, 1, 1], [(0, 1)], ([0, 0, 1], [1, 0, 4095]), "not feasible")
    two([4095, 1, 4095], [1, 1, 4094], [1, 1, 1], [(0, 1)], ([0, 0, 0], [1, 0, 4094]), "feasible")
    two([4095, 1, 4095], [1, 1, 4094], [1, 1, 1], [(0, 1)], ([0, 0, 0], [1, 0, 4093]), "not feasible")
    # ten in a line, one of them off by one
    ten = instance([10, 1, 1], [[1, 1, 1]] * 10)
    add_check(ten, packing(*[[i, 0, 0] for i in range(10)]), "feasible")
    add_check(ten, packing(*[[9 - i, 0, 0] for i in range(10)]), "feasible")
    add_check(ten, packing(*[[min(i, 8), 0, 0] for i in range(10)]), "not feasible")
    add_check(ten, packing(*[[max(i, 1), 0, 0] for i in range(10)]), "not feasible")
    add_check(ten, packing(*[[i, 0, 0] for i in range(9)]), "not feasible")
    add_check(ten, packing(*[[i + 1, 0, 0] for i in range(10)]), "not feasible")
    stairs = instance([1, 1, 10], [[1, 1, 1]] * 10, [pair for pair in ALL_PAIRS if pair[0] < pair[1]])
    add_check(stairs, packing(*[[0, 0, i] for i in range(10)]), "feasible")
    add_check(stairs, packing(*[[0, 0, 9 - i] for i in range(10)]), "not feasible")
    add_check(FULL, packing(), "not feasible")


# By hand: clearance


def hand_clearance():
    def two(first, second, starts, axis, line):
        value = instance([9, 9, 9], [first, second])
        add_clearance(value, packing(*starts), 0, 1, axis, line)
        add_clearance(value, packing(*starts), 1, 0, axis, line)

    for axis in range(3):
        for start, line in ((6, "3"), (4, "1"), (3, "0"), (2, "-1"), (1, "-2"), (0, "-3")):
            first, second, other = [1, 1, 1], [1, 1, 1], [7, 7, 7]
            first[axis] = 3
            second[axis] = 5
            other[axis] = start
            two(first, second, ([0, 0, 0], other), axis, "clearance " + line)
    # one inside the other: the least move that parts them
    two([7, 1, 1], [2, 1, 1], ([0, 0, 0], [1, 0, 0]), 0, "clearance -3")
    two([7, 1, 1], [2, 1, 1], ([0, 0, 0], [5, 0, 0]), 0, "clearance -2")
    two([7, 1, 1], [2, 1, 1], ([0, 0, 0], [3, 0, 0]), 0, "clearance -4")
    two([7, 1, 1], [7, 1, 1], ([2, 0, 0], [2, 0, 0]), 0, "clearance -7")
    # extremes, both ways
    most, far = [4095] * 3, [65535] * 3
    two(most, most, ([0, 0, 0], [0, 0, 0]), 0, "clearance -4095")
    two(most, most, (far, far), 1, "clearance -4095")
    two([1, 1, 1], [1, 1, 1], ([0, 0, 0], far), 2, "clearance 65534")
    two(most, [1, 1, 1], ([0, 0, 0], most), 0, "clearance 0")
    two([1, 1, 1], most, ([0, 0, 0], far), 1, "clearance 65534")
    two(most, [1, 1, 1], (far, [0, 0, 0]), 2, "clearance 65534")
    two(most, most, ([0, 0, 0], most), 0, "clearance 0")
    two(most, most, ([0, 0, 0], [4094] * 3), 0, "clearance -1")
    two(most, [1, 1, 1], (far, far), 0, "clearance -1")
    # an item with itself
    three = instance([1, 1, 1], [[2, 3, 4], [1, 1, 1], most], [(0, 1), (1, 0)], 7)
    starts = packing([5, 6, 7], [0, 0, 0], far, far)
    for axis, line in enumerate(("-2", "-3", "-4")):
        add_clearance(three, starts, 0, 0, axis, "clearance " + line)
        add_clearance(three, starts, 1, 1, axis, "clearance -1")
        add_clearance(three, starts, 2, 2, axis, "clearance -4095")
    # an item that is not there, then an axis that is not there
    largest = 2 ** 64 - 1
    for u, v in ((3, 0), (0, 3), (3, 3), (9, 0), (0, 10), (256, 0), (0, 65536), (2 ** 32, 0), (largest, 0), (0, largest)):
        for axis in (0, 3):
            add_clearance(three, starts, u, v, axis, "refused 5 0")
    for axis in (3, 4, 128, 255):
        add_clearance(three, starts, 0, 1, axis, "refused 8 0")
        add_clearance(three, starts, 2, 2, axis, "refused 8 0")
    add_clearance(instance([1, 1, 1]), starts, 0, 0, 0, "refused 5 0")
    add_clearance(FULL, packing(), 9, 8, 2, "clearance -4095")
    add_clearance(FULL, packing(), 10, 8, 2, "refused 5 0")


# By hand: lags (request #101)

LONGEST_WITH_LAGS = b"\x7f" + LONGEST[1:] + bytes(range(1, 91))
FULL_WITH_LAGS = instance([4095] * 3, [[4095] * 3] * 10, [pair + (lag,) for lag, pair in enumerate(ALL_PAIRS, 1)], 65535)

LAGS_BY_HAND = [
    # an empty field: 11 where it would start, before the bytes that follow
    ("40", "refused 11 1"),
    ("40 00", "refused 11 1"),
    ("40 01", "refused 11 1"),
    ("40 FF FF FF", "refused 11 1"),
    ("41", "refused 1 1"),
    ("41 01 00", "refused 3 1"),
    ("41 02 00 07", "refused 11 3"),
    ("48", "refused 1 1"),
    ("48 01", "refused 1 2"),
    ("48 01 08", "refused 11 3"),
    ("48 01 00", "refused 11 3"),
    ("48 01 00 01", "refused 11 3"),
    ("60", "refused 1 1"),
    ("60 00", "refused 1 2"),
    ("60 00 00", "refused 3 1"),
    ("60 00 00 01", "refused 3 1"),
    ("60 01 00", "refused 11 3"),
    ("60 01 00 05", "refused 11 3"),
    ("68 01 00 07 00", "refused 11 5"),
    # orders come first
    ("50", "refused 1 1"),
    ("50 00", "refused 4 1"),
    ("50 01 00 01 05", "refused 5 2"),
    ("58 02 00 00 01 01 01 05", "refused 5 5"),
    ("58 02 00 00 02 00 01 00 01 05 05", "refused 6 7"),
    # one lag
    ("58 02 00 00 01 00 01", "refused 1 7"),
    ("58 02 00 00 01 00 01 00", "refused 11 7"),
    ("58 02 00 00 01 00 01 00 00", "refused 11 7"),
    ("58 02 00 00 01 00 01 00 01", "refused 11 7"),
    ("58 02 00 00 01 00 01 01 00", "refused 7 8"),
    ("18 02 00 00 01 00 01 01", "refused 7 7"),
    ("58 02 00 00 01 00 01 01", "read 1 1 1 items 2 1 1 1 1 1 1 precedences 1 0 1 lag 1 yard 0 rest zero"),
    ("58 02 00 00 01 00 01 7F", "read 1 1 1 items 2 1 1 1 1 1 1 precedences 1 0 1 lag 127 yard 0 rest zero"),
    ("58 02 00 00 01 00 01 80", "read 1 1 1 items 2 1 1 1 1 1 1 precedences 1 0 1 lag 128 yard 0 rest zero"),
    ("58 02 00 00 01 00 01 FF", "read 1 1 1 items 2 1 1 1 1 1 1 precedences 1 0 1 lag 255 yard 0 rest zero"),
    # two lags: cut, also after a 0; whole fields of zeros; one of the two
    ("58 02 00 00 02 00 01 01 00", "refused 1 9"),
    ("58 02 00 00 02 00 01 01 00 00", "refused 1 10"),
    ("58 02 00 00 02 00 01 01 00 01", "refused 1 10"),
    ("58 02 00 00 02 00 01 01 00 00 00", "refused 11 9"),
    ("58 02 00 00 02 00 01 01 00 00 00 00", "refused 11 9"),
    ("58 02 00 00 02 00 01 01 00 00 00 01", "refused 11 9"),
    ("58 02 00 00 02 00 01 01 00 00 01 07", "refused 7 11"),
    ("58 02 00 00 02 00 01 01 00 00 01", "read 1 1 1 items 2 1 1 1 1 1 1 precedences 2 0 1 1 0 lag 1 yard 0 rest zero"),
    ("58 02 00 00 02 00 01 01 00 02 00", "read 1 1 1 items 2 1 1 1 1 1 1 precedences 2 0 1 lag 2 1 0 yard 0 rest zero"),
    ("58 02 00 00 02 00 01 01 00 02 03", "read 1 1 1 items 2 1 1 1 1 1 1 precedences 2 0 1 lag 2 1 0 lag 3 yard 0 rest zero"),
    # after the yard number
    ("78 02 00 00 01 00 01", "refused 1 7"),
    ("78 02 00 00 01 00 01 05", "refused 1 8"),
    ("78 02 00 00 01 00 01 00 00", "refused 3 7"),
    ("78 02 00 00 01 00 01 00 00 05", "refused 3 7"),
    ("78 02 00 00 01 00 01 05 00", "refused 1 9"),
    ("78 02 00 00 01 00 01 05 00 00", "refused 11 9"),
    ("78 02 00 00 01 00 01 05 00 03", "read 1 1 1 items 2 1 1 1 1 1 1 precedences 1 0 1 lag 3 yard 5 rest zero"),
    ("78 02 00 00 01 00 01 05 01 03", "read 1 1 1 items 2 1 1 1 1 1 1 precedences 1 0 1 lag 3 yard 261 rest zero"),
    ("78 02 00 00 01 00 01 05 00 03 00", "refused 7 10"),
    # bit 7: the walkway comes after the lags
    ("C0 00", "refused 11 1"),
    ("D8 02 00 00 01 00 01 01", "refused 1 8"),
]


def hand_lags_read():
    for sheet, line in LAGS_BY_HAND:
        add_read(bytes.fromhex(sheet), line)
    sheet = LONGEST_WITH_LAGS
    assert len(sheet) == 351
    pairs = "".join(" %d %d lag %d" % (u, v, lag) for lag, (u, v) in enumerate(ALL_PAIRS, 1))
    add_read(sheet, "read 4095 4095 4095 items 10" + " 4095" * 30 + " precedences 90" + pairs + " yard 65535 rest zero")
    add_rewrite(sheet, "rewritten 351 " + sheet.hex())
    add_read(sheet + b"\0", "refused 7 351")
    add_read(sheet + bytes(1000), "refused 7 351")
    for length in range(261, 351):
        add_read(sheet[:length], "refused 1 %d" % length)
    add_read(sheet[:261] + bytes(89), "refused 1 350")
    add_read(sheet[:261] + bytes(90), "refused 11 261")
    add_read(sheet[:261] + bytes(91), "refused 11 261")
    add_read(sheet[:261] + bytes(90) + b"\1", "refused 11 261")
    pairs = "".join(" %d %d" % pair for pair in ALL_PAIRS)
    full = "read 4095 4095 4095 items 10" + " 4095" * 30 + " precedences 90" + pairs
    add_read(sheet[:261] + bytes(89) + b"\1", full + " lag 1 yard 65535 rest zero")
    add_read(sheet[:259] + b"\0\0" + sheet[261:], "refused 3 259")
    add_read(LONGEST + sheet[261:], "refused 7 261")
    for k in (0, 9):
        add_record(sheet, k, "record 0 0 07ff0fff0fff0f")
    add_record(sheet, 10, "record 5 0")
    add_record(sheet[:261] + bytes(90), 0, "record 11 261")
    add_record(sheet[:350], 0, "record 1 350")
    add_record(sheet + b"\0", 9, "record 7 351")
    add_record(bytes.fromhex("58 02 00 01 05 00 01 00 01 09"), 1, "record 0 0 010500")
    add_record(bytes.fromhex("58 02 00 01 05 00 01 00 01 00"), 1, "record 11 9")
    add_record(bytes.fromhex("48 01 00"), 0, "record 11 3")


def hand_lags_write():
    example = instance([2, 1, 2], [[2, 1, 1], [1, 1, 1]], [(1, 0, 3)])
    add_write(example, 14, "written 14 5d02000200020102000001010003" + filled(0))
    add_write(example, 13, "refused 8 0 " + filled(13))
    add_write(example, 15, "written 14 5d02000200020102000001010003" + filled(1))
    add_write(example, 300, "written 14 5d02000200020102000001010003" + filled(286, "00"), fill=0)
    add_valid(example, "valid")
    # a field exactly where a lag is above 0, with all of them
    three = [[1, 1, 1]] * 3
    head = "03000000" + "03000100020102"
    add_write(instance([1, 1, 1], three, [(0, 1, 0), (0, 2, 0), (1, 2, 0)]), 12, "written 12 18" + head + filled(0))
    add_write(instance([1, 1, 1], three, [(0, 1, 1), (0, 2, 5), (1, 2, 0)]), 15, "written 15 58" + head + "010500" + filled(0))
    add_write(instance([1, 1, 1], three, [(0, 1, 0), (0, 2, 0), (1, 2, 255)]), 15, "written 15 58" + head + "0000ff" + filled(0))
    add_write(instance([1, 1, 1], three, [(0, 1, 0), (0, 2, 0), (1, 2, 255)]), 14, "refused 8 0 " + filled(14))
    # the yard number is before it
    with_yard = instance([1, 1, 1], three, [(0, 1, 128), (0, 2, 0), (1, 2, 127)], 515)
    add_write(with_yard, 17, "written 17 78" + head + "0302" + "80007f" + filled(0))
    add_write(FULL_WITH_LAGS, 351, "written 351 " + LONGEST_WITH_LAGS.hex() + filled(0))
    add_write(FULL_WITH_LAGS, 350, "refused 8 0 " + filled(350))
    add_write(FULL_WITH_LAGS, 352, "written 351 " + LONGEST_WITH_LAGS.hex() + filled(1))
    add_write(FULL_WITH_LAGS, 400, "written 351 " + LONGEST_WITH_LAGS.hex() + filled(49))
    add_valid(FULL_WITH_LAGS, "valid")
    # lags past the count are no part of it
    past = instance([2, 1, 2], [[2, 1, 1], [1, 1, 1]], [(1, 0)])
    past["precedences"][1:] = [[0, 0, 255] for _ in range(89)]
    add_write(past, 13, "written 13 1d020002000201020000010100" + filled(0))
    add_valid(past, "valid")
    past["precedences"][0][2] = 3
    add_write(past, 14, "written 14 5d02000200020102000001010003" + filled(0))
    past["precedence_count"] = 0
    add_write(past, 10, "written 10 0d020002000201020000" + filled(0))
    add_write(changed(FULL_WITH_LAGS, "precedence_count", None, 0), 261, "written 80 2f" + LONGEST[1:78].hex() + "ffff" + filled(181))
    # a greater lag does not put an order above the one before
    for first, second in ((0, 1), (1, 0), (5, 5), (0, 255)):
        twice = instance([9, 9, 9], three, [(0, 1, first), (0, 1, second)])
        add_valid(twice, "not valid")
        add_write(twice, 300, "refused 9 0 " + filled(300))
        add_check(twice, packing([0, 0, 0], [0, 0, 9]), "refused 9 0")
    falling = instance([9, 9, 9], three, [(0, 2, 0), (0, 1, 255)])
    add_valid(falling, "not valid")
    add_clearance(falling, packing(), 0, 1, 0, "refused 9 0")


def hand_lags_check():
    def two(shifts, lag, starts, line):
        value = instance([9, 9, shifts], [[2, 2, 2], [3, 3, 3]], [(0, 1, lag)])
        add_check(value, packing([0, 0, starts[0]], [4, 4, starts[1]]), line)

    # u ends at 2: v may start at 2 + lag, in a hall that has the shifts
    two(20, 0, (0, 2), "feasible")
    two(20, 1, (0, 2), "not feasible")
    two(20, 1, (0, 3), "feasible")
    two(20, 1, (0, 4), "feasible")
    two(20, 5, (3, 9), "not feasible")
    two(20, 5, (3, 10), "feasible")
    two(12, 5, (3, 10), "not feasible")
    two(20, 5, (10, 0), "not feasible")
    two(300, 128, (0, 129), "not feasible")
    two(300, 128, (0, 130), "feasible")
    two(300, 255, (0, 256), "not feasible")
    two(300, 255, (0, 257), "feasible")
    two(260, 255, (0, 257), "feasible")
    two(259, 255, (0, 257), "not feasible")
    two(4095, 255, (3835, 4092), "feasible")
    two(4095, 255, (3836, 4092), "not feasible")
    two(4095, 255, (4093, 4092), "not feasible")
    two(4095, 255, (4093, 4095), "not feasible")
    # on x and y nothing changes: touching is allowed
    beside = instance([4, 1, 9], [[2, 1, 2], [2, 1, 2]], [(0, 1, 3)])
    add_check(beside, packing([0, 0, 0], [2, 0, 5]), "feasible")
    add_check(beside, packing([2, 0, 0], [0, 0, 5]), "feasible")
    add_check(beside, packing([0, 0, 0], [0, 0, 5]), "feasible")
    add_check(beside, packing([0, 0, 0], [2, 0, 4]), "not feasible")
    # each order has its own lag: 1 is due at 2, and 2 at 6 and after 1's end
    three = instance([1, 1, 7], [[1, 1, 1]] * 3, [(0, 1, 1), (0, 2, 5), (1, 2, 0)])
    for starts, line in (
        ((0, 2, 6), "feasible"),
        ((0, 5, 6), "feasible"),
        ((0, 1, 6), "not feasible"),
        ((0, 2, 5), "not feasible"),
        ((0, 6, 6), "not feasible"),
        ((0, 2, 7), "not feasible"),
        ((1, 3, 6), "not feasible"),
    ):
        add_check(three, packing(*[[0, 0, start] for start in starts]), line)
    # an order that only follows from others has none: 2 may follow 1 at once
    follows = instance([1, 1, 9], [[1, 1, 1]] * 3, [(0, 1, 2), (1, 2, 0)])
    add_check(follows, packing([0, 0, 0], [0, 0, 3], [0, 0, 4]), "feasible")
    add_check(follows, packing([0, 0, 0], [0, 0, 2], [0, 0, 4]), "not feasible")
    # another piece may stand in the lag
    between = instance([1, 1, 3], [[1, 1, 1]] * 3, [(0, 1, 1)])
    add_check(between, packing([0, 0, 0], [0, 0, 2], [0, 0, 1]), "feasible")
    # a circle
    add_check(instance([9, 1, 99], [[1, 1, 1]] * 2, [(0, 1, 1), (1, 0, 0)]), packing([0, 0, 0], [1, 0, 9]), "not feasible")
    # lags past the count are no part of it
    past = instance([9, 9, 9], [[1, 1, 1]] * 2, [(0, 1, 1)])
    past["precedences"][1:] = [[0, 1, 255] for _ in range(89)]
    add_check(past, packing([0, 0, 0], [0, 0, 2]), "feasible")
    # the clearance is as it was
    for axis, line in enumerate(("2", "2", "4")):
        value = instance([9, 9, 20], [[2, 2, 2], [3, 3, 3]], [(0, 1, 200)])
        add_clearance(value, packing([0, 0, 0], [4, 4, 6]), 0, 1, axis, "clearance " + line)


def hand_lags_run():
    units = [[1, 1, 1]] * 3

    def row(container, items, precedences, first, *starts):
        text = first + "\n" + "".join("%d %d %d %d %d\n" % (piece, *marked(start)) for piece, start in enumerate(starts))
        add_run(reference.encode(instance(container, items, precedences)), text)

    add_run(bytes.fromhex("40"), "refused 11 1\n")
    add_run(bytes.fromhex("58 02 00 00 01 00 01 00"), "refused 11 7\n")
    add_run(LONGEST_WITH_LAGS, "none 1\n")
    add_run(EXAMPLE, "placed 1\n0 0 0 1 0\n1 0 0 0 0\n")
    # compare/src/table.rs says how these were worked out
    direct = [(0, 1, 1), (0, 2, 5), (1, 2, 0)]
    row([1, 1, 7], units, direct, "placed 1", [0, 0, 0], [0, 0, 2], [0, 0, 6])
    row([1, 1, 6], units, direct, "none 1")
    row([1, 1, 4], units, [(0, 1, 1)], "placed 3", [0, 0, 0], [0, 0, 2], [0, 0, 3])
    row([1, 1, 3], units, [(0, 1, 1)], "placed 1", [0, 0, 0], [0, 0, 2], [0, 0, 1])
    row([1, 1, 2], units, [(0, 1, 1)], "none 1")
    row([2, 1, 3], units, [(0, 1, 1)], "placed 4", [0, 0, 0], [0, 0, 2], [1, 0, 0])
    row([3, 1, 4], [[1, 1, 1], [1, 1, 4], [1, 1, 1]], [(0, 2, 2)], "placed 3", [0, 0, 0], [1, 0, 0], [2, 0, 3])
    row([1, 1, 5], units, [(0, 1, 2), (1, 2, 0)], "placed 1", [0, 0, 0], [0, 0, 3], [0, 0, 4])
    row([1, 1, 4], units, [(0, 1, 2), (1, 2, 0)], "none 1")
    row([1, 1, 5], units, [(0, 2, 3), (1, 2, 0)], "placed 1", [0, 0, 0], [0, 0, 1], [0, 0, 4])
    row([1, 1, 6], units, [(0, 2, 3), (1, 2, 0)], "placed 2", [0, 0, 0], [0, 0, 1], [0, 0, 4])
    row([2, 1, 4], [[2, 1, 1], [1, 1, 1]], [(1, 0, 2)], "placed 1", [0, 0, 3], [0, 0, 0])
    row([2, 1, 3], [[2, 1, 1], [1, 1, 1]], [(1, 0, 2)], "none 1")
    row([1, 1, 130], units[:2], [(0, 1, 128)], "placed 1", [0, 0, 0], [0, 0, 129])
    row([1, 1, 129], units[:2], [(0, 1, 128)], "none 1")
    row([1, 1, 257], units[:2], [(0, 1, 255)], "placed 1", [0, 0, 0], [0, 0, 256])
    row([1, 1, 256], units[:2], [(0, 1, 255)], "none 1")
    row([1, 1, 4095], [[1, 1, 3584], [1, 1, 256]], [(0, 1, 255)], "placed 1", [0, 0, 0], [0, 0, 3839])
    row([1, 1, 4095], [[1, 1, 3585], [1, 1, 256]], [(0, 1, 255)], "none 1")
    row([3, 1, 99], units, [(0, 1, 1), (1, 2, 0), (2, 0, 0)], "none 1")


# By hand: the earliest finish (request #103)


def hand_finish():
    units = [[1, 1, 1]] * 3
    example = [[2, 1, 1], [1, 1, 1]]

    def spent(value, budgets):
        """Each allowance with the length that it shows: all of it is taken."""
        for allowance, length in budgets:
            add_finish(value, allowance, "finish 0 %d %d" % (length, allowance) + " 0" * 40)

    def decided(value, answer, length, steps, *starts):
        """From so many steps on, and not one earlier; all shorter lengths have their steps before."""
        line = "finish %d %d %d" % (answer, length, steps)
        line += "".join(" %d %d %d %d" % tuple(start) for start in packing(*starts))
        for allowance in (steps, steps + 1, GREATEST):
            add_finish(value, allowance, line)

    # no pieces: 1 once a step is allowed, however many shifts there are
    for shifts in (1, 2, 4095):
        spent(instance([1, 1, shifts]), [(0, 0)])
        decided(instance([1, 1, shifts]), 1, 1, 1)
    # one piece: each length below its own takes the step that says none
    for shifts in (1, 2, 9, 4095):
        spent(instance([1, 1, shifts], units[:1]), [(0, 0)])
        decided(instance([1, 1, shifts], units[:1]), 1, 1, 1, [0, 0, 0])
    spent(instance([3, 3, 9], [[2, 2, 4]]), [(0, 0), (1, 1), (2, 2), (3, 3)])
    decided(instance([3, 3, 9], [[2, 2, 4]]), 1, 4, 4)
    spent(instance([3, 3, 3], [[2, 2, 4]]), [(0, 0), (1, 1), (2, 2)])
    decided(instance([3, 3, 3], [[2, 2, 4]]), 2, 0, 3)
    spent(instance([1, 1, 300], [[1, 1, 258]]), [(255, 255), (256, 256), (257, 257)])
    decided(instance([1, 1, 300], [[1, 1, 258]]), 1, 258, 258)
    # wider or deeper than the hall: no length helps
    for piece in ([2, 1, 1], [1, 2, 1]):
        spent(instance([1, 1, 3], [piece]), [(0, 0), (1, 1), (2, 2)])
        decided(instance([1, 1, 3], [piece]), 2, 0, 3)
    # all lengths there are: the last step of the last one says none
    spent(instance([1, 1, 4095], [[2, 1, 1]]), [(4, 4)])
    add_finish(instance([1, 1, 4095], [[2, 1, 1]]), 4095, "finish 2 0 4095" + " 0" * 40)
    # the printed example, with its shifts and more: none 1 and placed 1
    for shifts in (2, 3, 9):
        spent(instance([2, 1, shifts], example, [(1, 0)]), [(0, 0), (1, 1)])
        decided(instance([2, 1, shifts], example, [(1, 0)]), 1, 2, 2, [0, 0, 1], [0, 0, 0])
    spent(instance([2, 1, 1], example, [(1, 0)]), [(0, 0)])
    decided(instance([2, 1, 1], example, [(1, 0)]), 2, 0, 1)
    # the same, no order: none 1 and placed 2, the turn that puts 0 first
    spent(instance([2, 1, 5], example), [(0, 0), (1, 1), (2, 1)])
    decided(instance([2, 1, 5], example), 1, 2, 3, [0, 0, 0], [0, 0, 1])
    # 2 x 2, two units: beside one another in one shift, after 3 steps
    spent(instance([2, 2, 5], units[:2]), [(0, 0), (1, 0), (2, 0)])
    decided(instance([2, 2, 5], units[:2]), 1, 1, 3, [0, 0, 0], [1, 0, 0])
    # 2 x 1, three units: none 3; then 0 before 1 and before 2 on x, and 1 before 2 on t, four turns, and the step that says placed
    spent(instance([2, 1, 1], units), [(0, 0), (1, 0), (2, 0)])
    decided(instance([2, 1, 1], units), 2, 0, 3)
    spent(instance([2, 1, 4], units), [(0, 0), (2, 0), (3, 1), (4, 1), (7, 1)])
    decided(instance([2, 1, 4], units), 1, 2, 8, [0, 0, 0], [1, 0, 0], [1, 0, 1])
    # 1 x 1, three units: none 1, none 3, then three turns one after another
    spent(instance([1, 1, 2], units), [(0, 0), (1, 1), (2, 1), (3, 1)])
    decided(instance([1, 1, 2], units), 2, 0, 4)
    spent(instance([1, 1, 9], units), [(0, 0), (1, 1), (3, 1), (4, 2), (5, 2), (7, 2)])
    decided(instance([1, 1, 9], units), 1, 3, 8, [0, 0, 0], [0, 0, 1], [0, 0, 2])
    # a circle: each length takes a step
    circle = instance([3, 1, 4], units, [(0, 1), (1, 2), (2, 0)])
    spent(circle, [(0, 0), (3, 3)])
    decided(circle, 2, 0, 4)
    # the boxes of document 01: a chain of 231
    orders = [(1, 3), (1, 4), (2, 0), (2, 1), (2, 3), (3, 0), (4, 3)]
    boxes = [[58, 1, 20], [99, 1, 3], [7, 1, 53], [11, 1, 90], [26, 1, 65]]
    spent(instance([100, 1, 300], boxes, orders), [(230, 230)])
    starts = [0, 0, 211], [0, 0, 53], [0, 0, 0], [0, 0, 121], [0, 0, 56]
    decided(instance([100, 1, 300], boxes, orders), 1, 231, 231, *starts)
    # lags: in 3 shifts 2 stands in the lag, in 4 it would stand last; the plan is the one of 3
    spent(instance([1, 1, 4], units, [(0, 1, 1)]), [(0, 0), (1, 1), (2, 2)])
    decided(instance([1, 1, 4], units, [(0, 1, 1)]), 1, 3, 3, [0, 0, 0], [0, 0, 2], [0, 0, 1])
    direct = [(0, 1, 1), (0, 2, 5), (1, 2, 0)]
    spent(instance([1, 1, 20], units, direct), [(5, 5), (6, 6)])
    decided(instance([1, 1, 20], units, direct), 1, 7, 7, [0, 0, 0], [0, 0, 2], [0, 0, 6])
    decided(instance([1, 1, 300], units[:2], [(0, 1, 255)]), 1, 257, 257, [0, 0, 0], [0, 0, 256])
    decided(instance([1, 1, 256], units[:2], [(0, 1, 255)]), 2, 0, 256)
    # what is past the counts is no part of it
    past = instance([2, 1, 9], example, [(1, 0)], 77)
    past["items"][2:] = [[0, 7, 65535] for _ in range(8)]
    past["precedences"][1:] = [[0, 1, 255] for _ in range(89)]
    spent(past, [(0, 0), (1, 1)])
    decided(past, 1, 2, 2, [0, 0, 1], [0, 0, 0])
    # number 9 and nothing else, whatever the allowance
    for number, value in enumerate(refused_values()):
        add_finish(value, [0, 1, 2, 1000, GREATEST][number % 5], "refused 9 0")


# By hand: the greatest measure (request #104)

NO_ITEMS = " items 0 precedences 0 yard 0 rest zero"
ONE_ITEM = "read 1 1 1 items 1"
NO_ORDERS = " precedences 0 yard 0 rest zero"

LIMIT_BY_HAND = [
    # the low byte comes first
    ("01 00 0F", "read 3840 1 1" + NO_ITEMS),
    ("01 10 00", "read 16 1 1" + NO_ITEMS),
    ("01 10 0F", "read 3856 1 1" + NO_ITEMS),
    ("01 0F 10", "refused 12 1"),
    ("01 0F FF", "refused 12 1"),
    ("01 01 10", "refused 12 1"),
    ("01 FF 10", "refused 12 1"),
    ("01 00 80", "refused 12 1"),
    # a byte is missing: 1, whatever the other one is
    ("01 FF", "refused 1 2"),
    ("01 10", "refused 1 2"),
    ("04 FF", "refused 1 2"),
    ("07 02 00 FF 0F 10", "refused 1 6"),
    ("08 01 01 FF", "refused 1 4"),
    ("08 01 07 FF 0F FF 0F 10", "refused 1 8"),
    # ... and a field that is whole, before a byte that is missing
    ("03 00 10", "refused 12 1"),
    ("03 00 10 FF", "refused 12 1"),
    ("07 FF 0F 00 10 02", "refused 12 3"),
    ("0F 02 00 02 00 00 10", "refused 12 5"),
    ("08 02 01 00 10", "refused 12 3"),
    ("03 FF 0F 00", "refused 1 4"),
    # 3 in an earlier field, and in a later one
    ("03 00 00 00 10", "refused 3 1"),
    ("03 01 00 FF FF", "refused 3 1"),
    ("03 00 10 01 00", "refused 12 1"),
    ("05 FF FF 00 00", "refused 12 1"),
    ("07 FF 0F 01 00 00 10", "refused 3 3"),
    ("07 FF 0F 00 10 01 00", "refused 12 3"),
    ("08 01 03 01 00 00 10", "refused 3 3"),
    ("08 01 03 00 10 00 00", "refused 12 3"),
    ("09 00 10 01 01 01 00", "refused 12 1"),
    ("09 01 00 01 01 00 10", "refused 3 1"),
    ("08 02 01 01 00 01 00 10", "refused 3 3"),
    ("08 02 01 00 10 01 01 00", "refused 12 3"),
    # before a walkway that is missing; 2
    ("81 00 10", "refused 12 1"),
    ("09 00 10 01 08", "refused 12 1"),
    ("09 FF 0F 01 08", "read 4095 1 1 items 1 1 1 1 turn precedences 0 yard 0 rest zero"),
    ("08 01 09 00 10", "refused 12 3"),
    ("08 02 01 00 10 08", "refused 12 3"),
    ("08 02 01 FF 0F 08", "read 1 1 1 items 2 4095 1 1 1 1 1 turn precedences 0 yard 0 rest zero"),
    # 4
    ("09 00 10 00", "refused 12 1"),
    ("09 00 10 0B", "refused 12 1"),
    ("09 FF 0F 00", "refused 4 3"),
    ("0C FF FF FF", "refused 12 1"),
    ("18 01 01 00 10 00", "refused 12 3"),
    ("18 01 01 FF 0F 00", "refused 4 5"),
    # 5 and 6
    ("18 02 00 02 00 10 01 01 01", "refused 12 4"),
    ("18 02 00 02 FF 0F 01 01 01", "refused 5 7"),
    ("18 02 00 04 00 10 02 00 01 00 01", "refused 12 4"),
    ("18 02 00 04 FF 0F 02 00 01 00 01", "refused 6 9"),
    # 7 and 11
    ("01 00 10 00", "refused 12 1"),
    ("01 FF 0F 00", "refused 7 3"),
    ("08 01 01 00 10 07", "refused 12 3"),
    ("41 00 10", "refused 12 1"),
    ("41 FF 0F", "refused 11 3"),
    ("48 01 04 00 10", "refused 12 3"),
    # two such fields: the first
    ("03 00 10 FF FF", "refused 12 1"),
    ("09 00 10 01 01 00 10", "refused 12 1"),
    ("09 FF 0F 01 01 00 10", "refused 12 5"),
    ("08 02 01 00 10 01 00 10", "refused 12 3"),
    ("08 02 01 FF 0F 01 00 10", "refused 12 6"),
    ("08 03 00 00 07 FF 0F FF 0F 00 10", "refused 12 9"),
    # a yard number is no measure, nor is a lag
    ("20 FF 0F", "read 1 1 1 items 0 precedences 0 yard 4095 rest zero"),
    ("20 00 10", "read 1 1 1 items 0 precedences 0 yard 4096 rest zero"),
    ("20 88 13", "read 1 1 1 items 0 precedences 0 yard 5000 rest zero"),
    ("21 FF 0F FF FF", "read 4095 1 1 items 0 precedences 0 yard 65535 rest zero"),
    ("21 FF 0F 00 00", "refused 3 3"),
    ("21 00 10 00 00", "refused 12 1"),
    ("28 01 04 FF 0F 00 10", "read 1 1 1 items 1 1 1 4095 precedences 0 yard 4096 rest zero"),
    ("58 02 04 FF 0F 00 01 00 01 FF", "read 1 1 1 items 2 1 1 4095 1 1 1 precedences 1 0 1 lag 255 yard 0 rest zero"),
]


def at_each_place(measure):
    """Sheets with that measure at each of the six places, alone and with the other two written; the place, and the line where it is read."""
    field, two = little(measure, 2), b"\2\0"
    for axis in range(3):
        alone, others = [1, 1, 1], [2, 2, 2]
        alone[axis] = others[axis] = measure
        fields = b"".join(field if other == axis else two for other in range(3))
        alone, others = " %d %d %d" % tuple(alone), " %d %d %d" % tuple(others)
        yield bytes([2 ** axis]) + field, 1, "read" + alone + NO_ITEMS
        yield b"\x07" + fields, 1 + 2 * axis, "read" + others + NO_ITEMS
        yield bytes([8, 1, 2 ** axis]) + field, 3, ONE_ITEM + alone + NO_ORDERS
        yield b"\x08\x01\x07" + fields, 3 + 2 * axis, ONE_ITEM + others + NO_ORDERS


def hand_limit_read():
    for sheet, line in LIMIT_BY_HAND:
        add_read(bytes.fromhex(sheet), line)
    for measure in (4094, 4095):
        for sheet, _, line in at_each_place(measure):
            add_read(sheet, line)
            add_rewrite(sheet, "rewritten %d %s" % (len(sheet), sheet.hex()))
    for measure in (4096, 4097, 8191, 32768, 65535):
        for sheet, place, _ in at_each_place(measure):
            add_read(sheet, "refused 12 %d" % place)
            add_rewrite(sheet, "refused 12 %d" % place)
    # one field of the longest sheet: those of the hall from 1, those of item k from 9 + 7 k
    for start in [1] + [9 + 7 * k for k in range(10)]:
        for place in (start, start + 2, start + 4):
            add_read(LONGEST[:place] + b"\x00\x10" + LONGEST[place + 2 :], "refused 12 %d" % place)
    add_read(LONGEST_WITH_LAGS[:76] + b"\xff\xff" + LONGEST_WITH_LAGS[78:], "refused 12 76")
    add_read(b"\x07" + b"\xff" * 9999, "refused 12 1")
    # records: the whole sheet is read first
    largest = 2 ** 64 - 1
    add_record(bytes.fromhex("0801 07 FF0F FF0F FF0F"), 0, "record 0 0 07ff0fff0fff0f")
    for k in (0, 1, 2, largest):
        add_record(bytes.fromhex("0802 01 FF0F 04 0010"), k, "record 12 6")
        add_record(bytes.fromhex("0902 00 02 00 01 0010"), k, "record 12 6")
        add_record(bytes.fromhex("09 0010 01 00"), k, "record 12 1")
    add_record(bytes.fromhex("2801 04 FF0F 0010"), 0, "record 0 0 04ff0f")
    # the program
    for sheet, line in (("01 00 10", "refused 12 1\n"), ("08 01 02 FF FF", "refused 12 3\n"), ("27 FF 0F FF 0F FF 0F FF FF", "placed 1\n")):
        add_run(bytes.fromhex(sheet), line)


def limit_values():
    """Values that number 9 names for a measure above 4,095, one fault each."""
    values = []
    for axis in range(3):
        for measure, items in ((4096, (0, 9)), ([65535, 32768, 4097][axis], (4,))):
            full = [4095] * 3
            full[axis] = measure
            values.append(changed(FULL, "container", None, full))
            for item in items:
                values.append(changed(FULL, "items", item, full))
        small = [2, 3, 4]
        small[axis] = 4096
        values.append(instance(small))
        values.append(instance([4095] * 3, [small]))
    return values


def hand_limit_values():
    # 9 comes before 5 and 8, whatever the allowance
    for number, value in enumerate(limit_values()):
        room, u, axis = (262, 0, 0) if number % 2 == 0 else (0, 65535, 3)
        add_valid(value, "not valid")
        add_write(value, room, "refused 9 0 " + filled(room))
        add_check(value, packing(), "refused 9 0")
        add_clearance(value, packing(), u, 0, axis, "refused 9 0")
        add_finish(value, [0, 1, 1000, GREATEST][number % 4], "refused 9 0")
    # past the count it is no part of the value; one more item, and it is
    past = instance([4095] * 3, [[4095, 1, 1], [1, 4095, 1], [1, 1, 4095]], [(0, 1)], 65535)
    past["items"][3:] = [[4096, 65535, 32768] for _ in range(7)]
    sheet = "3fff0fff0fff0f0301ff0f02ff0f04ff0f010001ffff"
    starts = packing([0, 1, 0], [0, 0, 1], [1, 0, 0], *[[65535] * 3] * 7)
    add_valid(past, "valid")
    add_write(past, 22, "written 22 " + sheet + filled(0))
    add_write(past, 21, "refused 8 0 " + filled(21))
    add_check(past, starts, "feasible")
    add_clearance(past, starts, 0, 1, 2, "clearance 0")
    add_clearance(past, starts, 0, 3, 2, "refused 5 0")
    add_clearance(past, starts, 1, 2, 3, "refused 8 0")
    add_finish(past, 0, "finish 0 0 0" + " 0" * 40)
    one_more = changed(past, "item_count", None, 4)
    add_valid(one_more, "not valid")
    add_write(one_more, 300, "refused 9 0 " + filled(300))
    add_check(one_more, starts, "refused 9 0")
    add_clearance(one_more, starts, 0, 1, 2, "refused 9 0")
    add_finish(one_more, GREATEST, "refused 9 0")
    none = changed(instance([4095] * 3), "items", None, [[65535] * 3 for _ in range(10)])
    add_valid(none, "valid")
    add_write(none, 7, "written 7 07ff0fff0fff0f" + filled(0))
    add_check(none, packing([65535] * 3), "feasible")
    add_finish(none, 1, "finish 1 1 1" + " 0" * 40)
    # a yard number and lags are no measures
    other = instance([4095] * 3, [[4095] * 3] * 2, [(0, 1, 255)], 4096)
    add_valid(other, "valid")
    add_write(other, 28, "written 28 7fff0fff0fff0f0207ff0fff0fff0f07ff0fff0fff0f0100010010ff" + filled(0))


def hand_limit_check():
    # starts go up to 65,535: ends above 65,535, and one that is 4,094 or 0 in 16 bits
    most, far = [4095] * 3, [65535] * 3
    add_check(instance(most), packing(far), "feasible")
    for axis in range(3):
        for start in (1, 4095, 61440, 61441, 65534, 65535):
            position = [0, 0, 0]
            position[axis] = start
            add_check(instance(most, [most]), packing(position), "not feasible")
    thin = instance(most, [[1, 1, 4095], [1, 1, 1]], [(0, 1)])
    add_check(thin, packing([0, 0, 61441], [1, 0, 65535]), "not feasible")
    add_check(thin, packing([0, 0, 61441], [1, 0, 0]), "not feasible")
    lag = instance(most, [[1, 1, 2], [1, 1, 3]], [(0, 1, 255)])
    add_check(lag, packing([0, 0, 65533], [1, 0, 0]), "not feasible")
    add_check(lag, packing([0, 0, 65279], [1, 0, 0]), "not feasible")
    two = instance([9, 9, 9], [most, most])
    for first, second, line in (
        ([0, 0, 0], far, "61440"),
        (far, [0, 0, 0], "61440"),
        ([0, 0, 0], [4096] * 3, "1"),
        ([61441] * 3, far, "-1"),
        ([61440] * 3, far, "0"),
        ([61439] * 3, far, "1"),
    ):
        for axis in range(3):
            add_clearance(two, packing(first, second), 0, 1, axis, "clearance " + line)


def hand_limit_run():
    def row(container, items, precedences, first, *starts):
        text = first + "\n" + "".join("%d %d %d %d %d\n" % (piece, *marked(start)) for piece, start in enumerate(starts))
        add_run(reference.encode(instance(container, items, precedences)), text)

    chain = [(piece, piece + 1) for piece in range(9)]
    with_most = [pair + (255,) for pair in chain]
    most = [[4095] * 3]
    # as large as the hall, and one more
    row([4095] * 3, most, [], "placed 1", [0, 0, 0])
    for axis in range(3):
        container = [4095] * 3
        container[axis] = 4094
        row(container, most, [], "none 1")
    # ten of them, 40,950 in all: without orders, one after another, and with 9 lags of 255 between
    row([4095] * 3, most * 10, [], "none 1")
    row([4095] * 3, most * 10, chain, "none 1")
    row([4095] * 3, most * 10, with_most, "none 1")
    # chains of 4,095 and of one more; on x nothing is known of two pieces, and the first turn puts 0 first
    row([1, 1, 4095], [[1, 1, 2047], [1, 1, 2048]], [(0, 1)], "placed 1", [0, 0, 0], [0, 0, 2047])
    row([1, 1, 4095], [[1, 1, 2048], [1, 1, 2048]], [(0, 1)], "none 1")
    row([4095, 1, 1], [[2047, 1, 1], [2048, 1, 1]], [], "placed 2", [0, 0, 0], [2047, 0, 0])
    row([1, 4095, 1], [[1, 2047, 1], [1, 2048, 1]], [], "placed 2", [0, 0, 0], [0, 2047, 0])
    row([4095, 1, 1], [[2048, 1, 1], [2048, 1, 1]], [], "none 1")
    # ten of 180 and 9 lags of 255: 1,800 + 2,295 = 4,095
    tens = [[1, 1, 180]] * 10
    row([1, 1, 4095], tens, with_most, "placed 1", *[[0, 0, 435 * piece] for piece in range(10)])
    row([1, 1, 4095], tens[:9] + [[1, 1, 181]], with_most, "none 1")
    row([1, 1, 4094], tens, with_most, "none 1")


def hand_limit_finish():
    def row(value, answer, length, steps, *starts):
        """The answer, with exactly the steps that it takes."""
        line = "finish %d %d %d" % (answer, length, steps)
        add_finish(value, steps, line + "".join(" %d %d %d %d" % tuple(start) for start in packing(*starts)))

    def spent(value, allowance, length):
        add_finish(value, allowance, "finish 0 %d %d" % (length, allowance) + " 0" * 40)

    # each length below takes the step that says none
    longest = instance([1, 1, 4095], [[1, 1, 4095]])
    row(longest, 1, 4095, 4095)
    spent(longest, 4094, 4094)
    row(instance([1, 1, 4094], [[1, 1, 4095]]), 2, 0, 4094)
    row(instance([4095, 4095, 4095], [[1, 1, 4000]]), 1, 4000, 4000)
    # a chain, and a chain with a lag: 2,047 + 2,048 and 1,920 + 255 + 1,920; one more, and no length is enough
    row(instance([1, 1, 4095], [[1, 1, 2047], [1, 1, 2048]], [(0, 1)]), 1, 4095, 4095, [0, 0, 0], [0, 0, 2047])
    row(instance([1, 1, 4095], [[1, 1, 2048], [1, 1, 2048]], [(0, 1)]), 2, 0, 4095)
    lag = instance([1, 1, 4095], [[1, 1, 1920], [1, 1, 1920]], [(0, 1, 255)])
    row(lag, 1, 4095, 4095, [0, 0, 0], [0, 0, 2175])
    spent(lag, 4094, 4094)
    row(instance([1, 1, 4095], [[1, 1, 1921], [1, 1, 1920]], [(0, 1, 255)]), 2, 0, 4095)
    # three of 1,365 without orders: below 2,730 two have no room, a step; below 4,095 three have none, 3 steps; then 4
    thirds = instance([1, 1, 4095], [[1, 1, 1365]] * 3)
    row(thirds, 1, 4095, 2729 + 3 * 1365 + 4, [0, 0, 0], [0, 0, 1365], [0, 0, 2730])
    spent(thirds, 2729 + 3 * 1365 + 3, 4094)


# By hand: the walkway (request #105)

EMPTY = "read 1 1 1 items 0 precedences 0"
TWO_UNITS = " items 2 1 1 1 1 1 1 precedences"
LONGEST_WITH_WALKWAY = b"\xff" + LONGEST_WITH_LAGS[1:] + b"\xff"
FULL_WITH_WALKWAY = {**FULL_WITH_LAGS, "walkway": 255}
# All fields: a hall of 3 x 4 x 5, pieces 2 x 1 x 1 and 1 x 1 x 3, order 0, 1, yard number 515, lag 6, walkway 7
ALL_FIELDS = bytes.fromhex("FF 0300 0400 0500 02 01 0200 04 0300 01 0001 0302 06 07")

WALKWAY_BY_HAND = [
    # alone: missing, 0, the widths there are, and bytes after it
    ("80", "refused 1 1"),
    ("80 00", "refused 3 1"),
    ("80 00 00", "refused 3 1"),
    ("80 00 05", "refused 3 1"),
    ("80 01", EMPTY + " yard 0 walkway 1 rest zero"),
    ("80 02", EMPTY + " yard 0 walkway 2 rest zero"),
    ("80 7F", EMPTY + " yard 0 walkway 127 rest zero"),
    ("80 80", EMPTY + " yard 0 walkway 128 rest zero"),
    ("80 FF", EMPTY + " yard 0 walkway 255 rest zero"),
    ("80 01 00", "refused 7 2"),
    ("80 05 01", "refused 7 2"),
    ("80 FF FF FF", "refused 7 2"),
    ("00 05", "refused 7 1"),
    # after the hall: a measure of 0 or 1 gets 3 at its own place, and one above 4,095 gets 12, before it
    ("81", "refused 1 1"),
    ("81 02", "refused 1 2"),
    ("81 02 00", "refused 1 3"),
    ("81 02 00 00", "refused 3 3"),
    ("81 02 00 05", "read 2 1 1 items 0 precedences 0 yard 0 walkway 5 rest zero"),
    ("81 02 00 05 00", "refused 7 4"),
    ("81 01 00 00", "refused 3 1"),
    ("81 00 10 00", "refused 12 1"),
    ("81 FF 0F 00", "refused 3 3"),
    ("01 02 00 05", "refused 7 3"),
    ("82 03 00 01", "read 1 3 1 items 0 precedences 0 yard 0 walkway 1 rest zero"),
    ("84 04 00 09", "read 1 1 4 items 0 precedences 0 yard 0 walkway 9 rest zero"),
    ("87 02 00 03 00 04 00", "refused 1 7"),
    ("87 02 00 03 00 04 00 00", "refused 3 7"),
    ("87 02 00 03 00 04 00 05", "read 2 3 4 items 0 precedences 0 yard 0 walkway 5 rest zero"),
    # after the pieces; bit 7 of a piece's map still has no meaning
    ("88", "refused 1 1"),
    ("88 00", "refused 4 1"),
    ("88 0B 05", "refused 4 1"),
    ("88 01", "refused 1 2"),
    ("88 01 00", "refused 1 3"),
    ("88 01 00 00", "refused 3 3"),
    ("88 01 00 01", "read 1 1 1 items 1 1 1 1 precedences 0 yard 0 walkway 1 rest zero"),
    ("88 01 00 01 00", "refused 7 4"),
    ("88 01 80 01", "refused 2 2"),
    ("88 01 88 01", "refused 2 2"),
    ("88 01 08 00", "refused 3 3"),
    ("88 02 00 80 01", "refused 2 3"),
    ("08 01 80", "refused 2 2"),
    ("08 01 80 05", "refused 2 2"),
    ("88 01 01 00 00 05", "refused 3 3"),
    ("88 01 02 05 00 06", "read 1 1 1 items 1 1 5 1 precedences 0 yard 0 walkway 6 rest zero"),
    # after the orders
    ("90 00", "refused 4 1"),
    ("90 01 00 01 05", "refused 5 2"),
    ("98 02 00 00 01 00 01", "refused 1 7"),
    ("98 02 00 00 01 00 01 00", "refused 3 7"),
    ("98 02 00 00 01 00 01 05", "read 1 1 1" + TWO_UNITS + " 1 0 1 yard 0 walkway 5 rest zero"),
    ("98 02 00 00 01 00 01 05 05", "refused 7 8"),
    ("98 02 00 00 01 01 01 00", "refused 5 5"),
    ("98 02 00 00 02 00 01 00 01 00", "refused 6 7"),
    # after the yard number, whose own 0 comes first
    ("A0", "refused 1 1"),
    ("A0 05", "refused 1 2"),
    ("A0 05 03", "refused 1 3"),
    ("A0 00 00", "refused 3 1"),
    ("A0 00 00 00", "refused 3 1"),
    ("A0 05 00 00", "refused 3 3"),
    ("A0 05 00 03", EMPTY + " yard 5 walkway 3 rest zero"),
    ("A0 00 05 03", EMPTY + " yard 1280 walkway 3 rest zero"),
    ("A0 05 00 03 00", "refused 7 4"),
    ("B8 02 00 00 01 00 01 05 00 09", "read 1 1 1" + TWO_UNITS + " 1 0 1 yard 5 walkway 9 rest zero"),
    ("B8 02 00 00 01 00 01 00 00 00", "refused 3 7"),
    ("B8 02 00 00 01 00 01 05 00 00", "refused 3 9"),
    # an empty lag field gets 11 before anything that follows it
    ("C0", "refused 11 1"),
    ("C0 00", "refused 11 1"),
    ("C0 05", "refused 11 1"),
    ("C0 05 05", "refused 11 1"),
    ("C0 FF FF FF", "refused 11 1"),
    ("C1 02 00", "refused 11 3"),
    ("C1 02 00 05", "refused 11 3"),
    ("C1 01 00 05", "refused 3 1"),
    ("C8 01 00", "refused 11 3"),
    ("C8 01 00 05", "refused 11 3"),
    ("C8 01 80 05", "refused 2 2"),
    ("E0 05", "refused 1 2"),
    ("E0 00 00 05", "refused 3 1"),
    ("E0 01 00", "refused 11 3"),
    ("E0 01 00 00", "refused 11 3"),
    ("E0 01 00 05", "refused 11 3"),
    # one lag: a field of zeros is judged before the walkway is read
    ("D8 02 00 00 01 00 01", "refused 1 7"),
    ("D8 02 00 00 01 00 01 00", "refused 11 7"),
    ("D8 02 00 00 01 00 01 00 00", "refused 11 7"),
    ("D8 02 00 00 01 00 01 00 05", "refused 11 7"),
    ("D8 02 00 00 01 00 01 03", "refused 1 8"),
    ("D8 02 00 00 01 00 01 03 00", "refused 3 8"),
    ("D8 02 00 00 01 00 01 03 00 00", "refused 3 8"),
    ("D8 02 00 00 01 00 01 03 05", "read 1 1 1" + TWO_UNITS + " 1 0 1 lag 3 yard 0 walkway 5 rest zero"),
    ("D8 02 00 00 01 00 01 05 03", "read 1 1 1" + TWO_UNITS + " 1 0 1 lag 5 yard 0 walkway 3 rest zero"),
    ("D8 02 00 00 01 00 01 03 05 00", "refused 7 9"),
    ("58 02 00 00 01 00 01 03 05", "refused 7 8"),
    # two lags: what would be a walkway is the second
    ("D8 02 00 00 02 00 01 01 00", "refused 1 9"),
    ("D8 02 00 00 02 00 01 01 00 03", "refused 1 10"),
    ("D8 02 00 00 02 00 01 01 00 03 05", "refused 1 11"),
    ("D8 02 00 00 02 00 01 01 00 00 05", "refused 1 11"),
    ("D8 02 00 00 02 00 01 01 00 00 00", "refused 11 9"),
    ("D8 02 00 00 02 00 01 01 00 00 00 05", "refused 11 9"),
    ("D8 02 00 00 02 00 01 01 00 03 05 00", "refused 3 11"),
    ("D8 02 00 00 02 00 01 01 00 03 00 07", "read 1 1 1" + TWO_UNITS + " 2 0 1 lag 3 1 0 yard 0 walkway 7 rest zero"),
    ("D8 02 00 00 02 00 01 01 00 00 03 07", "read 1 1 1" + TWO_UNITS + " 2 0 1 1 0 lag 3 yard 0 walkway 7 rest zero"),
    # yard number, lag and walkway, in this sequence
    ("F8 02 00 00 01 00 01 05 00 03", "refused 1 10"),
    ("F8 02 00 00 01 00 01 05 00 03 00", "refused 3 10"),
    ("F8 02 00 00 01 00 01 05 00 00 09", "refused 11 9"),
    ("F8 02 00 00 01 00 01 00 00 00 00", "refused 3 7"),
    ("F8 02 00 00 01 00 01 05 00 03 09", "read 1 1 1" + TWO_UNITS + " 1 0 1 lag 3 yard 5 walkway 9 rest zero"),
    ("F8 02 00 00 01 00 01 05 00 03 09 09", "refused 7 11"),
    ("FF", "refused 1 1"),
]


def hand_walkway_read():
    for sheet, line in WALKWAY_BY_HAND:
        add_read(bytes.fromhex(sheet), line)
    # all fields: whole, cut at every length, with a byte more, with a last byte of 0, without each of the eight bits
    sheet = ALL_FIELDS
    whole = "read 3 4 5 items 2 2 1 1 1 1 3 precedences 1 0 1 lag 6 yard 515 walkway 7 rest zero"
    add_read(sheet, whole)
    add_rewrite(sheet, "rewritten %d %s" % (len(sheet), sheet.hex()))
    for length in range(len(sheet)):
        add_read(sheet[:length], "refused 1 %d" % length)
    add_read(sheet + b"\7", "refused 7 %d" % len(sheet))
    add_read(sheet[:-1] + b"\0", "refused 3 %d" % (len(sheet) - 1))
    add_read(sheet[:-2] + b"\0\7", "refused 11 %d" % (len(sheet) - 2))
    add_read(b"\x7f" + sheet[1:], "refused 7 %d" % (len(sheet) - 1))
    add_read(b"\xbf" + sheet[1:], "refused 7 %d" % (len(sheet) - 1))
    add_read(b"\xbf" + sheet[1:-2] + b"\7", whole.replace(" lag 6", ""))
    add_read(b"\xdf" + sheet[1:-4] + sheet[-2:], whole.replace("yard 515", "yard 0"))
    # without the bit of the orders their count is the yard number, 1, and the lag field that follows it is empty
    add_read(b"\xef" + sheet[1:], "refused 11 %d" % (len(sheet) - 5))
    # the longest sheet
    sheet = LONGEST_WITH_WALKWAY
    assert len(sheet) == 352
    pairs = "".join(" %d %d lag %d" % (u, v, lag) for lag, (u, v) in enumerate(ALL_PAIRS, 1))
    full = "read 4095 4095 4095 items 10" + " 4095" * 30 + " precedences 90"
    add_read(sheet, full + pairs + " yard 65535 walkway 255 rest zero")
    add_rewrite(sheet, "rewritten 352 " + sheet.hex())
    add_read(sheet[:-1] + b"\1", full + pairs + " yard 65535 walkway 1 rest zero")
    add_read(sheet[:-1] + b"\0", "refused 3 351")
    add_read(sheet[:-1] + b"\0\0", "refused 3 351")
    add_read(sheet + b"\0", "refused 7 352")
    add_read(sheet + b"\xff", "refused 7 352")
    add_read(sheet + bytes(1000), "refused 7 352")
    for length in list(range(8)) + [79, 80, 258, 259, 260, 261, 262] + list(range(340, 352)):
        add_read(sheet[:length], "refused 1 %d" % length)
    add_read(b"\x7f" + sheet[1:], "refused 7 351")
    add_read(sheet[:261] + bytes(90), "refused 11 261")
    add_read(sheet[:261] + bytes(91), "refused 11 261")
    add_read(sheet[:261] + bytes(90) + b"\xff", "refused 11 261")
    # as long as the longest without: 261 bytes and the walkway
    pairs = "".join(" %d %d" % pair for pair in ALL_PAIRS)
    short = b"\xbf" + LONGEST[1:]
    add_read(short, "refused 1 261")
    add_read(short + b"\0", "refused 3 261")
    add_read(short + b"\x80", full + pairs + " yard 65535 walkway 128 rest zero")
    add_rewrite(short + b"\x80", "rewritten 262 " + short.hex() + "80")
    add_read(short + b"\x80\0", "refused 7 262")
    for k in (0, 9):
        add_record(sheet, k, "record 0 0 07ff0fff0fff0f")
    add_record(sheet, 10, "record 5 0")
    add_record(sheet[:351], 0, "record 1 351")
    add_record(sheet[:351] + b"\0", 9, "record 3 351")
    add_record(sheet + b"\0", 9, "record 7 352")
    add_record(ALL_FIELDS, 0, "record 0 0 010200")
    add_record(ALL_FIELDS, 1, "record 0 0 040300")
    add_record(ALL_FIELDS, 2, "record 5 0")
    add_record(bytes.fromhex("88 01 00 01"), 0, "record 0 0 00")
    add_record(bytes.fromhex("88 01 00 00"), 0, "record 3 3")
    add_record(bytes.fromhex("88 01 00"), 0, "record 1 3")
    add_record(bytes.fromhex("88 01 80 01"), 0, "record 2 2")
    add_record(bytes.fromhex("C8 01 00 01"), 0, "record 11 3")
    add_record(bytes.fromhex("80"), 0, "record 1 1")
    add_record(bytes.fromhex("80 05"), 0, "record 5 0")
    for sheet, line in (("80 01", "rewritten 2 8001"), ("80 00", "refused 3 1"), ("C0 05", "refused 11 1"), ("A0 05 00 03", "rewritten 4 a0050003")):
        add_rewrite(bytes.fromhex(sheet), line)


def hand_walkway_write():
    # written exactly when it is above 0, last
    empty = instance([1, 1, 1])
    for walkway, text in ((1, "8001"), (127, "807f"), (128, "8080"), (255, "80ff")):
        value = {**empty, "walkway": walkway}
        add_write(value, 2, "written 2 " + text + filled(0))
        add_write(value, 1, "refused 8 0 " + filled(1))
        add_valid(value, "valid")
    add_write({**empty, "walkway": 1}, 0, "refused 8 0 " + filled(0))
    add_write({**empty, "walkway": 1}, 5, "written 2 8001" + filled(3))
    add_write({**empty, "walkway": 1}, 5, "written 2 8001" + filled(3, "00"), fill=0)
    add_write({**empty, "walkway": 0}, 1, "written 1 00" + filled(0))
    add_write(instance([1, 1, 1], yard=515, walkway=4), 4, "written 4 a0030204" + filled(0))
    add_write(instance([1, 1, 1], yard=515, walkway=4), 3, "refused 8 0 " + filled(3))
    example = [2, 1, 2], [[2, 1, 1], [1, 1, 1]]
    head = "0200020002010200000101" + "00"
    for precedences, yard, walkway, text in (
        ([(1, 0)], 0, 3, "9d" + head + "03"),
        ([(1, 0, 5)], 0, 3, "dd" + head + "0503"),
        ([(1, 0, 5)], 770, 3, "fd" + head + "02030503"),
        ([(1, 0)], 770, 3, "bd" + head + "020303"),
        ([(1, 0, 5)], 770, 0, "7d" + head + "020305"),
    ):
        value = instance(*example, precedences, yard, walkway)
        length = len(text) // 2
        add_write(value, length, "written %d " % length + text + filled(0))
        add_write(value, length - 1, "refused 8 0 " + filled(length - 1))
        add_write(value, length + 3, "written %d " % length + text + filled(3))
        add_valid(value, "valid")
    longest = LONGEST_WITH_WALKWAY.hex()
    add_write(FULL_WITH_WALKWAY, 352, "written 352 " + longest + filled(0))
    add_write(FULL_WITH_WALKWAY, 351, "refused 8 0 " + filled(351))
    add_write(FULL_WITH_WALKWAY, 353, "written 352 " + longest + filled(1))
    add_write(FULL_WITH_WALKWAY, 400, "written 352 " + longest + filled(48))
    add_valid(FULL_WITH_WALKWAY, "valid")
    # a walkway is no measure, and lags past the count do not stand beside it
    past = instance([2, 1, 2], [[2, 1, 1], [1, 1, 1]], [(1, 0)], walkway=255)
    past["items"][2:] = [[0, 4096, 65535] for _ in range(8)]
    past["precedences"][1:] = [[0, 0, 255] for _ in range(89)]
    add_write(past, 14, "written 14 9d" + head + "ff" + filled(0))
    add_valid(past, "valid")
    # 9, whatever the walkway
    for number, value in enumerate(refused_values() + limit_values()):
        if number % 9 == 0:
            room, u, axis = (400, 0, 0) if number % 2 == 0 else (0, 65535, 3)
            value = {**value, "walkway": [255, 1][number // 9 % 2]}
            add_valid(value, "not valid")
            add_write(value, room, "refused 9 0 " + filled(room))
            add_check(value, packing(), "refused 9 0")
            add_clearance(value, packing(), u, 0, axis, "refused 9 0")
            add_finish(value, number, "refused 9 0")


def hand_walkway_check():
    def two(walkway, container, first, second, starts, line, precedences=()):
        """Of the two in either sequence."""
        add_check(instance(container, [first, second], precedences, walkway=walkway), packing(*starts), line)
        if not precedences:
            add_check(instance(container, [second, first], walkway=walkway), packing(*starts[::-1]), line)

    # the first ends at 2 + start; on x and y the second starts at least the walkway after it, on t it may touch
    cube, bar = [2, 2, 2], [3, 2, 2]
    for walkway in (1, 3):
        for axis in range(3):
            need = walkway if axis < 2 else 0
            for gap, line in ((need, "feasible"), (need + 1, "feasible"), (need - 1, "not feasible")):
                other = [1, 1, 1]
                other[axis] = 1 + 2 + gap
                two(walkway, [9, 9, 9], cube, cube, ([1, 1, 1], other), line)
    # less than the walkway on both, one less on each, and enough on one alone: either axis will do
    for x, y, line in (
        (2, 2, "not feasible"),
        (4, 4, "not feasible"),
        (4, 2, "not feasible"),
        (2, 4, "not feasible"),
        (5, 4, "feasible"),
        (4, 5, "feasible"),
        (5, 0, "feasible"),
        (0, 5, "feasible"),
        (5, 5, "feasible"),
    ):
        two(3, [9, 9, 9], cube, cube, ([0, 0, 0], [x, y, 0]), line)
    # apart in time nothing is needed: in one place, touching, and closer than the walkway
    for other, line in (
        ([0, 0, 2], "feasible"),
        ([0, 0, 7], "feasible"),
        ([2, 0, 2], "feasible"),
        ([1, 2, 2], "feasible"),
        ([2, 2, 1], "not feasible"),
        ([2, 0, 1], "not feasible"),
        ([0, 4, 1], "not feasible"),
        ([0, 5, 1], "feasible"),
    ):
        two(3, [9, 9, 9], cube, cube, ([0, 0, 0], other), line)
    # nothing at the walls: one piece that fills the hall, and two with the passage between them alone
    add_check(instance([4, 3, 2], [[4, 3, 2]], walkway=255), packing([0, 0, 0]), "feasible")
    add_check(instance([4, 3, 2], [[4, 3, 2]], walkway=1), packing([0, 1, 0]), "not feasible")
    add_check(instance([4, 3, 2], walkway=255), packing([9, 9, 9]), "feasible")
    two(1, [9, 1, 1], [4, 1, 1], [4, 1, 1], ([0, 0, 0], [5, 0, 0]), "feasible")
    two(1, [9, 1, 1], [4, 1, 1], [4, 1, 1], ([0, 0, 0], [4, 0, 0]), "not feasible")
    two(1, [9, 1, 1], [4, 1, 1], [4, 1, 1], ([1, 0, 0], [5, 0, 0]), "not feasible")
    two(1, [8, 1, 1], [4, 1, 1], [4, 1, 1], ([0, 0, 0], [4, 0, 0]), "not feasible")
    two(1, [8, 1, 1], [4, 1, 1], [4, 1, 1], ([0, 0, 0], [5, 0, 0]), "not feasible")
    two(0, [8, 1, 1], [4, 1, 1], [4, 1, 1], ([0, 0, 0], [4, 0, 0]), "feasible")
    two(1, [8, 1, 2], [4, 1, 1], [4, 1, 1], ([0, 0, 0], [4, 0, 1]), "feasible")
    two(2, [1, 8, 1], [1, 3, 1], [1, 3, 1], ([0, 0, 0], [0, 5, 0]), "feasible")
    two(2, [1, 8, 1], [1, 3, 1], [1, 3, 1], ([0, 0, 0], [0, 4, 0]), "not feasible")
    # other lengths than one another: 3 + 2 and 2 + 2
    two(2, [9, 9, 9], bar, cube, ([0, 0, 0], [5, 0, 0]), "feasible")
    two(2, [9, 9, 9], bar, cube, ([0, 0, 0], [4, 0, 0]), "not feasible")
    two(2, [9, 9, 9], bar, cube, ([4, 0, 0], [0, 0, 0]), "feasible")
    two(2, [9, 9, 9], bar, cube, ([3, 0, 0], [0, 0, 0]), "not feasible")
    # 128 and 255: 1 + 128 and 1 + 255
    for axis in (0, 1):
        for walkway, start, line in ((128, 129, "feasible"), (128, 128, "not feasible"), (255, 256, "feasible"), (255, 255, "not feasible")):
            other, container = [0, 0, 0], [1, 1, 1]
            other[axis], container[axis] = start, 300
            two(walkway, container, [1, 1, 1], [1, 1, 1], ([0, 0, 0], other), line)
    # 1,920 + 255 + 1,920 = 4,095; and starts near 65,535, where sums are above it and everything is outside
    two(255, [4095, 1, 1], [1920, 1, 1], [1920, 1, 1], ([0, 0, 0], [2175, 0, 0]), "feasible")
    two(255, [4095, 1, 1], [1920, 1, 1], [1920, 1, 1], ([0, 0, 0], [2174, 0, 0]), "not feasible")
    two(255, [4095, 1, 1], [1920, 1, 1], [1920, 1, 1], ([1, 0, 0], [2175, 0, 0]), "not feasible")
    for first, second in ((65535, 0), (65281, 1), (65280, 65535), (65024, 0)):
        two(255, [4095, 4095, 4095], [256, 1, 1], [1, 1, 1], ([first, 0, 0], [second, 0, 0]), "not feasible")
    # with orders and lags: they are about time, the walkway is about the floor
    order = [(0, 1, 2)]
    two(3, [9, 9, 9], cube, cube, ([0, 0, 0], [0, 0, 4]), "feasible", order)
    two(3, [9, 9, 9], cube, cube, ([0, 0, 0], [0, 0, 3]), "not feasible", order)
    two(3, [9, 9, 9], cube, cube, ([0, 0, 0], [5, 0, 3]), "not feasible", order)
    two(3, [9, 9, 9], cube, cube, ([0, 0, 0], [5, 0, 4]), "feasible", order)
    # two of three stand closer than the walkway: those in different shifts may
    three = instance([5, 1, 2], [[1, 1, 1], [1, 1, 1], [1, 1, 2]], walkway=1)
    for starts, line in (
        (([0, 0, 0], [1, 0, 1], [3, 0, 0]), "feasible"),
        (([0, 0, 0], [2, 0, 1], [4, 0, 0]), "feasible"),
        (([0, 0, 0], [2, 0, 1], [3, 0, 0]), "not feasible"),
        (([0, 0, 0], [0, 0, 1], [1, 0, 0]), "not feasible"),
        (([0, 0, 0], [2, 0, 0], [4, 0, 0]), "feasible"),
        (([0, 0, 0], [1, 0, 0], [3, 0, 0]), "not feasible"),
    ):
        add_check(three, packing(*starts), line)
    # ten in a line of 10 + 9; positions past the count are ignored
    for axis in (0, 1):
        container = [1, 1, 1]
        container[axis] = 19
        ten = instance(container, [[1, 1, 1]] * 10, walkway=1)
        row = [[0, 0, 0] for _ in range(10)]
        for piece in range(10):
            row[piece][axis] = 2 * piece
        add_check(ten, packing(*row), "feasible")
        add_check(ten, packing(*row[::-1]), "feasible")
        add_check({**ten, "walkway": 2}, packing(*row), "not feasible")
        row[5][axis] = 9
        add_check(ten, packing(*row), "not feasible")
        add_check({**ten, "item_count": 5}, packing(*row), "feasible")
        add_check({**ten, "item_count": 6}, packing(*row), "not feasible")


def hand_walkway_clearance():
    # the plain distance of starts and ends, as without one
    for walkway in (1, 255):
        value = instance([9, 9, 9], [[3, 3, 3], [5, 5, 5]], walkway=walkway)
        for axis in range(3):
            for start, line in ((6, "3"), (4, "1"), (3, "0"), (2, "-1"), (0, "-3")):
                other = [7, 7, 7]
                other[axis] = start
                add_clearance(value, packing([0, 0, 0], other), axis % 2, 1 - axis % 2, axis, "clearance " + line)
            add_clearance(value, packing([0, 0, 0], [7, 7, 7]), 1, 1, axis, "clearance -5")
        add_clearance(value, packing(), 0, 2, 0, "refused 5 0")
        add_clearance(value, packing(), 0, 1, 3, "refused 8 0")
    far = instance([9, 9, 9], [[1, 1, 1], [4095] * 3], walkway=255)
    add_clearance(far, packing([0, 0, 0], [65535] * 3), 0, 1, 0, "clearance 65534")
    add_clearance(far, packing([65535] * 3, [0, 0, 0]), 1, 0, 1, "clearance 61440")


def hand_walkway_run():
    units = [[1, 1, 1]] * 10

    def row(walkway, container, items, precedences, first, *starts):
        text = first + "\n" + "".join("%d %d %d %d %d\n" % (piece, *marked(start)) for piece, start in enumerate(starts))
        add_run(reference.encode(instance(container, items, precedences, walkway=walkway)), text)

    for sheet, line in (
        ("80", "refused 1 1"),
        ("80 00", "refused 3 1"),
        ("80 05", "placed 1"),
        ("80 05 05", "refused 7 2"),
        ("C0 05", "refused 11 1"),
        ("FF", "refused 1 1"),
        ("9D 02 00 02 00 02 01 02 00 00 01 01 00", "refused 1 13"),
        ("9D 02 00 02 00 02 01 02 00 00 01 01 00 00", "refused 3 13"),
    ):
        add_run(bytes.fromhex(sheet), line + "\n")
    add_run(bytes.fromhex("9D 02 00 02 00 02 01 02 00 00 01 01 00 FF"), "placed 1\n0 0 0 1 0\n1 0 0 0 0\n")
    add_run(LONGEST_WITH_WALKWAY, "none 1\n")
    # compare/src/table.rs says how these were worked out
    four = [[4, 1, 1]] * 2
    row(0, [8, 1, 1], four, [], "placed 2", [0, 0, 0], [4, 0, 0])
    row(1, [8, 1, 1], four, [], "none 1")
    row(1, [9, 1, 1], four, [], "placed 2", [0, 0, 0], [5, 0, 0])
    row(2, [9, 1, 1], four, [], "none 1")
    row(1, [8, 1, 2], four, [], "placed 2", [0, 0, 0], [0, 0, 1])
    row(1, [8, 1, 2], four, [(1, 0)], "placed 1", [0, 0, 1], [0, 0, 0])
    row(1, [8, 1, 1], four, [(1, 0)], "none 1")
    row(1, [1, 8, 1], [[1, 4, 1]] * 2, [], "none 1")
    row(1, [1, 9, 1], [[1, 4, 1]] * 2, [], "placed 2", [0, 0, 0], [0, 5, 0])
    row(2, [2, 2, 2], units[:2], [], "placed 2", [0, 0, 0], [0, 0, 1])
    row(1, [3, 3, 1], units[:2], [], "placed 3", [0, 0, 0], [2, 0, 0])
    row(1, [2, 3, 1], units[:2], [], "placed 2", [0, 0, 0], [0, 2, 0])
    row(1, [2, 1, 1], units[:3], [], "none 1")
    row(1, [5, 1, 1], units[:3], [], "placed 4", [0, 0, 0], [2, 0, 0], [4, 0, 0])
    row(1, [4, 1, 1], units[:3], [], "none 3")
    row(1, [1, 5, 1], units[:3], [], "placed 4", [0, 0, 0], [0, 2, 0], [0, 4, 0])
    row(1, [1, 4, 1], units[:3], [], "none 3")
    row(2, [7, 1, 1], units[:3], [], "placed 4", [0, 0, 0], [3, 0, 0], [6, 0, 0])
    row(2, [6, 1, 1], units[:3], [], "none 3")
    # ten in a row of 10 + 9: each pair takes a turn, 45 of them, and the next step says placed
    row(1, [19, 1, 1], units, [], "placed 46", *[[2 * piece, 0, 0] for piece in range(10)])
    row(1, [1, 19, 1], units, [], "placed 46", *[[0, 2 * piece, 0] for piece in range(10)])
    # nothing at the walls
    row(255, [4, 3, 2], [[4, 3, 2]], [], "placed 1", [0, 0, 0])
    row(255, [4, 3, 2], [[5, 3, 2]], [], "none 1")
    # 128 and 255: 1 + 128 + 1 and 1 + 255 + 1; and 1,920 + 255 + 1,920 = 4,095
    row(128, [130, 1, 1], units[:2], [], "placed 2", [0, 0, 0], [129, 0, 0])
    row(128, [129, 1, 1], units[:2], [], "none 1")
    row(255, [257, 1, 1], units[:2], [], "placed 2", [0, 0, 0], [256, 0, 0])
    row(255, [256, 1, 1], units[:2], [], "none 1")
    row(255, [1, 257, 1], units[:2], [], "placed 2", [0, 0, 0], [0, 256, 0])
    row(255, [4095, 1, 1], [[1920, 1, 1]] * 2, [], "placed 2", [0, 0, 0], [2175, 0, 0])
    row(255, [4095, 1, 1], [[1921, 1, 1], [1920, 1, 1]], [], "none 1")
    # ten of 180 and 9 walkways of 255: 1,800 + 2,295 = 4,095; ten of 4,095 take 43,245
    row(255, [4095, 1, 1], [[180, 1, 1]] * 10, [], "placed 46", *[[435 * piece, 0, 0] for piece in range(10)])
    row(255, [4095] * 3, [[4095] * 3] * 10, [], "none 1")
    # lags and a walkway
    row(1, [8, 1, 4], four, [(0, 1, 2)], "placed 1", [0, 0, 0], [0, 0, 3])
    row(1, [8, 1, 3], four, [(0, 1, 2)], "none 1")
    row(1, [3, 1, 3], units[:3], [(0, 1, 1)], "placed 4", [0, 0, 0], [0, 0, 2], [2, 0, 0])
    row(1, [2, 1, 3], units[:3], [(0, 1, 1)], "placed 1", [0, 0, 0], [0, 0, 2], [0, 0, 1])
    row(1, [5, 1, 4], [[1, 1, 1], [1, 1, 4], [1, 1, 1]], [(0, 2, 2)], "placed 3", [0, 0, 0], [2, 0, 0], [4, 0, 3])
    row(9, [1, 1, 7], units[:3], [(0, 1, 1), (0, 2, 5), (1, 2, 0)], "placed 1", [0, 0, 0], [0, 0, 2], [0, 0, 6])
    row(9, [99, 99, 99], units[:3], [(0, 1, 1), (1, 2, 0), (2, 0, 0)], "none 1")


def hand_walkway_finish():
    units = [[1, 1, 1]] * 3

    def spent(value, budgets):
        for allowance, length in budgets:
            add_finish(value, allowance, "finish 0 %d %d" % (length, allowance) + " 0" * 40)

    def decided(value, answer, length, steps, *starts):
        line = "finish %d %d %d" % (answer, length, steps)
        line += "".join(" %d %d %d %d" % tuple(start) for start in packing(*starts))
        for allowance in (steps, GREATEST):
            add_finish(value, allowance, line)

    # no pieces, and one that fills the floor: nothing is between pieces
    decided(instance([1, 1, 9], walkway=255), 1, 1, 1)
    decided(instance([3, 3, 9], [[3, 3, 2]], walkway=255), 1, 2, 2)
    # two of 4 on a floor of 8: without a walkway beside one another in 2 shifts, with one after another in 4, each shorter length a step
    four = [[4, 1, 2]] * 2
    spent(instance([8, 1, 9], four), [(0, 0), (1, 1), (2, 1)])
    decided(instance([8, 1, 9], four), 1, 2, 3, [0, 0, 0], [4, 0, 0])
    with_1 = instance([8, 1, 9], four, walkway=1)
    spent(with_1, [(0, 0), (1, 1), (3, 3), (4, 3)])
    decided(with_1, 1, 4, 5, [0, 0, 0], [0, 0, 2])
    decided(instance([9, 1, 9], four, walkway=1), 1, 2, 3, [0, 0, 0], [5, 0, 0])
    spent(instance([8, 1, 3], four, walkway=1), [(2, 2)])
    decided(instance([8, 1, 3], four, walkway=1), 2, 0, 3)
    # 2 x 2, two units: one shift, and with a walkway two: the step that says none, then the turn on t and the step that says placed
    decided(instance([2, 2, 5], units[:2], walkway=1), 1, 2, 3, [0, 0, 0], [0, 0, 1])
    # 3 x 1, three units: as 2 x 1 without a walkway, 3 and 5 steps
    spent(instance([3, 1, 4], units, walkway=1), [(2, 0), (3, 1), (7, 1)])
    decided(instance([3, 1, 4], units, walkway=1), 1, 2, 8, [0, 0, 0], [2, 0, 0], [2, 0, 1])
    decided(instance([3, 1, 1], units, walkway=1), 2, 0, 3)
    # 2 x 1, three units: with a walkway one after another, as 1 x 1: 1, 3 and 4 steps
    decided(instance([2, 1, 9], units, walkway=1), 1, 3, 8, [0, 0, 0], [0, 0, 1], [0, 0, 2])
    # with a lag: 1 + 2 + 1 shifts
    lag = instance([8, 1, 9], [[4, 1, 1]] * 2, [(0, 1, 2)], walkway=1)
    spent(lag, [(3, 3)])
    decided(lag, 1, 4, 4, [0, 0, 0], [0, 0, 3])
    # 255: on 257 modules two stand side by side
    decided(instance([257, 1, 9], units[:2], walkway=255), 1, 1, 2, [0, 0, 0], [256, 0, 0])
    decided(instance([256, 1, 9], units[:2], walkway=255), 1, 2, 3, [0, 0, 0], [0, 0, 1])
    # what is past the counts is no part of it
    past = instance([8, 1, 9], four, [], 77, 1)
    past["items"][2:] = [[0, 7, 65535] for _ in range(8)]
    past["precedences"] = [[0, 1, 255] for _ in range(90)]
    decided(past, 1, 4, 5, [0, 0, 0], [0, 0, 2])


# By hand: pieces that may be turned (request #106)

ONE_TURN = ONE_ITEM + " %s turn" + NO_ORDERS
# The longest sheet with bit 3 in every item's map, and the sheet of all fields with it in both
LONGEST_WITH_TURNS = bytes(byte | 8 if 8 <= at < 78 and at % 7 == 1 else byte for at, byte in enumerate(LONGEST_WITH_WALKWAY))
FULL_WITH_TURNS = {**FULL_WITH_WALKWAY, "may_turn": [1] * 10}
ALL_FIELDS_AND_TURNS = bytes.fromhex("FF 0300 0400 0500 02 09 0200 0C 0300 01 0001 0302 06 07")

TURN_BY_HAND = [
    # bit 3 has no field: alone, and with each of the others
    ("08 01 08", ONE_TURN % "1 1 1"),
    ("08 01 09 02 00", ONE_TURN % "2 1 1"),
    ("08 01 0A 02 00", ONE_TURN % "1 2 1"),
    ("08 01 0B 02 00 03 00", ONE_TURN % "2 3 1"),
    ("08 01 0C 02 00", ONE_TURN % "1 1 2"),
    ("08 01 0D 02 00 03 00", ONE_TURN % "2 1 3"),
    ("08 01 0E 02 00 03 00", ONE_TURN % "1 2 3"),
    ("08 01 0F 02 00 03 00 04 00", ONE_TURN % "2 3 4"),
    ("08 01 07 02 00 03 00 04 00", ONE_ITEM + " 2 3 4" + NO_ORDERS),
    # so what follows is after the last field, or another item
    ("08 01 08 00", "refused 7 3"),
    ("08 01 08 01", "refused 7 3"),
    ("08 01 08 08", "refused 7 3"),
    ("08 01 09 02 00 00", "refused 7 5"),
    ("08 02 08 00", "read 1 1 1 items 2 1 1 1 turn 1 1 1" + NO_ORDERS),
    ("08 02 00 08", "read 1 1 1 items 2 1 1 1 1 1 1 turn" + NO_ORDERS),
    ("08 02 08 08", "read 1 1 1 items 2 1 1 1 turn 1 1 1 turn" + NO_ORDERS),
    ("08 02 08 09 02 00", "read 1 1 1 items 2 1 1 1 turn 2 1 1 turn" + NO_ORDERS),
    ("08 02 09 02 00 08", "read 1 1 1 items 2 2 1 1 turn 1 1 1 turn" + NO_ORDERS),
    ("08 03 01 05 00 0A 06 00 04 07 00", "read 1 1 1 items 3 5 1 1 1 6 1 turn 1 1 7" + NO_ORDERS),
    ("08 0A" + " 08" * 10, "read 1 1 1 items 10" + " 1 1 1 turn" * 10 + NO_ORDERS),
    ("08 0A" + " 08" * 9, "refused 1 11"),
    ("08 0A" + " 08" * 11, "refused 7 12"),
    # cut short
    ("08 02 08", "refused 1 3"),
    ("08 01 09", "refused 1 3"),
    ("08 01 09 02", "refused 1 4"),
    ("08 01 0A", "refused 1 3"),
    ("08 01 0C 05", "refused 1 4"),
    ("08 01 0B 02 00", "refused 1 5"),
    ("08 01 0F 02 00 03 00", "refused 1 7"),
    ("08 01 0F 02 00 03 00 04", "refused 1 8"),
    # 3 and 12 in the fields beside it
    ("08 01 09 00 00", "refused 3 3"),
    ("08 01 09 01 00", "refused 3 3"),
    ("08 01 0C 01 00", "refused 3 3"),
    ("08 01 0F 02 00 03 00 01 00", "refused 3 7"),
    ("08 01 0A 00 10", "refused 12 3"),
    ("08 01 0F 02 00 00 10 01 00", "refused 12 5"),
    ("08 02 08 0A 00 10", "refused 12 4"),
    # bits 4 to 7 have no meaning, beside bit 3 and without, before anything that follows
    ("08 01 10", "refused 2 2"),
    ("08 01 20", "refused 2 2"),
    ("08 01 40", "refused 2 2"),
    ("08 01 80", "refused 2 2"),
    ("08 01 18", "refused 2 2"),
    ("08 01 28", "refused 2 2"),
    ("08 01 48", "refused 2 2"),
    ("08 01 88", "refused 2 2"),
    ("08 01 F0", "refused 2 2"),
    ("08 01 F8", "refused 2 2"),
    ("08 01 FF", "refused 2 2"),
    ("08 01 17", "refused 2 2"),
    ("08 01 1F 02 00 03 00 04 00", "refused 2 2"),
    ("08 01 19 00 00", "refused 2 2"),
    ("08 02 10 08", "refused 2 2"),
    ("08 02 08 10", "refused 2 3"),
    ("08 02 08 18", "refused 2 3"),
    ("08 02 09 02 00 88", "refused 2 5"),
    ("08 02 09 01 00 88", "refused 3 3"),
    ("09 01 00 01 18", "refused 3 1"),
    ("88 01 18 00", "refused 2 2"),
    # what comes after the items
    ("18 01 08", "refused 1 3"),
    ("18 01 08 00", "refused 4 3"),
    ("18 02 08 00 01 01 01", "refused 5 5"),
    ("18 02 08 08 01 00 01", "read 1 1 1 items 2 1 1 1 turn 1 1 1 turn precedences 1 0 1 yard 0 rest zero"),
    ("28 01 08 00 00", "refused 3 3"),
    ("28 01 08 05 00", "read 1 1 1 items 1 1 1 1 turn precedences 0 yard 5 rest zero"),
    ("48 01 08 08", "refused 11 3"),
    ("88 01 08", "refused 1 3"),
    ("88 01 08 05", "read 1 1 1 items 1 1 1 1 turn precedences 0 yard 0 walkway 5 rest zero"),
    ("58 02 00 08 01 00 01 03", "read 1 1 1 items 2 1 1 1 1 1 1 turn precedences 1 0 1 lag 3 yard 0 rest zero"),
]


def hand_turn_read():
    for sheet, line in TURN_BY_HAND:
        add_read(bytes.fromhex(sheet), line)
    # all fields: whole, and cut at every length
    sheet = ALL_FIELDS_AND_TURNS
    add_read(sheet, "read 3 4 5 items 2 2 1 1 turn 1 1 3 turn precedences 1 0 1 lag 6 yard 515 walkway 7 rest zero")
    add_rewrite(sheet, "rewritten %d %s" % (len(sheet), sheet.hex()))
    for length in range(len(sheet)):
        add_read(sheet[:length], "refused 1 %d" % length)
    add_read(sheet + b"\7", "refused 7 %d" % len(sheet))
    add_record(sheet, 0, "record 0 0 090200")
    add_record(sheet, 1, "record 0 0 0c0300")
    add_record(sheet, 2, "record 5 0")
    # the longest sheet is as long as it was; item k's map is at 8 + 7 k
    sheet = LONGEST_WITH_TURNS
    assert len(sheet) == 352 and sheet[8] == sheet[71] == 15
    pairs = "".join(" %d %d lag %d" % (u, v, lag) for lag, (u, v) in enumerate(ALL_PAIRS, 1))
    items = " 4095 4095 4095 turn" * 10
    add_read(sheet, "read 4095 4095 4095 items 10" + items + " precedences 90" + pairs + " yard 65535 walkway 255 rest zero")
    add_rewrite(sheet, "rewritten 352 " + sheet.hex())
    add_read(sheet + b"\0", "refused 7 352")
    add_read(sheet[:-1], "refused 1 351")
    for k, bits in ((0, 0x10), (1, 0x20), (4, 0x40), (8, 0x80), (9, 0xF0)):
        at = 8 + 7 * k
        add_read(sheet[:at] + bytes([sheet[at] | bits]) + sheet[at + 1 :], "refused 2 %d" % at)
    for k in (0, 5, 9):
        add_record(sheet, k, "record 0 0 0fff0fff0fff0f")
    add_record(sheet, 10, "record 5 0")
    # records, and writing again
    add_record(bytes.fromhex("080208 0A0500"), 0, "record 0 0 08")
    add_record(bytes.fromhex("080208 0A0500"), 1, "record 0 0 0a0500")
    add_record(bytes.fromhex("080208 0A0500"), 2, "record 5 0")
    add_record(bytes.fromhex("080208 1A0500"), 0, "record 2 3")
    add_record(bytes.fromhex("080210 08"), 1, "record 2 2")
    add_record(bytes.fromhex("080208 0A05"), 0, "record 1 5")
    for text in ("080108", "0801090200", "08010f020003000400", "08020008", "1d0200020002090200080101" + "00", "88010805"):
        add_rewrite(bytes.fromhex(text), "rewritten %d %s" % (len(text) // 2, text))
    for sheet, line in (("08 01 18", "refused 2 2"), ("08 01 80", "refused 2 2"), ("08 02 08", "refused 1 3")):
        add_rewrite(bytes.fromhex(sheet), line)


def hand_turn_write():
    def row(value, text, *rooms):
        length = len(text) // 2
        add_write(value, length, "written %d " % length + text + filled(0))
        add_write(value, length - 1, "refused 8 0 " + filled(length - 1))
        for more in rooms:
            add_write(value, length + more, "written %d " % length + text + filled(more))

    one = [1, 1, 1]
    row(instance(one, [one], turn=[0]), "080108", 1, 9)
    row(instance(one, [[2, 1, 1]], turn=[0]), "0801090200")
    row(instance(one, [[1, 2, 1]], turn=[0]), "08010a0200")
    row(instance(one, [[1, 1, 2]], turn=[0]), "08010c0200")
    row(instance(one, [[2, 3, 4]], turn=[0]), "08010f020003000400")
    row(instance(one, [one] * 3, turn=[0]), "0803080000")
    row(instance(one, [one] * 3, turn=[1]), "0803000800")
    row(instance(one, [one] * 3, turn=[2]), "0803000008")
    row(instance(one, [one] * 3, turn=[0, 2]), "0803080008")
    row(instance([2, 1, 2], [[2, 1, 1], one], [(1, 0)], turn=[0, 1]), "1d020002000209020008010100", 3)
    row(FULL_WITH_TURNS, LONGEST_WITH_TURNS.hex(), 48)
    add_valid(FULL_WITH_TURNS, "valid")
    add_valid(instance(one, [one], turn=[0]), "valid")
    # any byte other than 0 says that it may turn
    for byte in (2, 8, 128, 255):
        add_write({**instance(one, [one]), "may_turn": [byte] + [0] * 9}, 3, "written 3 080108" + filled(0))
    # past the count it is no part of the value
    add_write(instance(one, turn=range(10)), 1, "written 1 00" + filled(0))
    add_write(instance(one, [one], turn=range(1, 10)), 3, "written 3 080100" + filled(0))
    add_write(instance(one, [one], turn=range(10)), 3, "written 3 080108" + filled(0))
    add_write(instance(one, [one] * 9, turn=[9]), 11, "written 11 0809" + "00" * 9 + filled(0))
    add_write(instance(one, [one] * 10, turn=[9]), 12, "written 12 080a" + "00" * 9 + "08" + filled(0))
    add_valid(instance(one, turn=range(10)), "valid")


# What a mark may not be: on an item that may turn, and on one that may not
BAD_MARKS = [(True, 2), (True, 3), (True, 128), (True, 255), (False, 1), (False, 2), (False, 255)]


def hand_turn_check():
    def row(container, items, turn, starts, line, precedences=(), walkway=0):
        add_check(instance(container, items, precedences, walkway=walkway, turn=turn), packing(*starts), line)

    # one piece: it fits as it is, turned, either way, or neither
    for container, piece, as_it_is, as_turned in (
        ([1, 2, 1], [2, 1, 1], False, True),
        ([2, 1, 1], [2, 1, 1], True, False),
        ([2, 2, 1], [2, 1, 1], True, True),
        ([2, 2, 1], [2, 2, 1], True, True),
        ([2, 2, 1], [3, 1, 1], False, False),
        ([2, 2, 1], [1, 3, 1], False, False),
        ([1, 4095, 1], [4095, 1, 1], False, True),
        # shifts stay: 1 x 2 x 3 turned is 2 x 1 x 3
        ([2, 1, 3], [1, 2, 3], False, True),
        ([1, 2, 3], [1, 2, 3], True, False),
        ([3, 2, 1], [1, 2, 3], False, False),
        ([1, 3, 2], [1, 2, 3], False, False),
        ([2, 3, 1], [1, 2, 3], False, False),
    ):
        for mark, fits in ((0, as_it_is), (1, as_turned)):
            row(container, [piece], [0], [[0, 0, 0, mark]], "feasible" if fits else "not feasible")
    # the last start in a hall of 5 x 5 x 5: x 4 and y 2 where 3 x 1 x 2 is turned, x 2 and y 4 where not; t 3 in both
    for start, line in (
        ([4, 2, 3, 1], "feasible"),
        ([5, 2, 3, 1], "not feasible"),
        ([4, 3, 3, 1], "not feasible"),
        ([4, 2, 4, 1], "not feasible"),
        ([2, 4, 3, 0], "feasible"),
        ([3, 4, 3, 0], "not feasible"),
        ([2, 4, 3, 1], "not feasible"),
        ([4, 2, 3, 0], "not feasible"),
        ([65535, 0, 0, 1], "not feasible"),
        ([0, 65535, 0, 1], "not feasible"),
    ):
        row([5, 5, 5], [[3, 1, 2]], [0], [start], line)
    # two of 3 x 2: the one that is turned takes 2 on x, the other 3
    for turns, starts, line in (
        ([0, 1], ([0, 0, 0, 1], [2, 0, 0, 0]), "feasible"),
        ([0, 1], ([0, 0, 0, 0], [2, 0, 0, 1]), "not feasible"),
        ([0, 1], ([0, 0, 0, 0], [3, 0, 0, 1]), "feasible"),
        ([0, 1], ([0, 0, 0, 1], [3, 0, 0, 0]), "not feasible"),
        ([0, 1], ([0, 0, 0, 1], [2, 0, 0, 1]), "feasible"),
        ([0, 1], ([0, 0, 0, 1], [1, 0, 0, 1]), "not feasible"),
        ([0, 1], ([2, 0, 0, 1], [0, 0, 0, 1]), "feasible"),
        ([0, 1], ([0, 0, 0, 0], [2, 0, 0, 0]), "not feasible"),
        ([0], ([0, 0, 0, 1], [2, 0, 0, 0]), "feasible"),
        ([1], ([0, 0, 0, 0], [3, 0, 0, 1]), "feasible"),
    ):
        row([5, 3, 1], [[3, 2, 1]] * 2, turns, starts, line)
    # on y: 3 where it is turned
    for y, mark, line in ((3, 1, "feasible"), (2, 1, "not feasible"), (2, 0, "feasible"), (1, 0, "not feasible")):
        row([3, 5, 1], [[3, 2, 1]] * 2, [0], ([0, 0, 0, mark], [0, y, 0, 0]), line)
    # with a walkway of 2 after a turned 3 x 1: x 1 + 2, y 3 + 2
    for x, y, line in ((3, 0, "feasible"), (2, 0, "not feasible"), (0, 5, "feasible"), (0, 4, "not feasible")):
        row([9, 9, 9], [[3, 1, 1], [1, 1, 1]], [0], ([0, 0, 0, 1], [x, y, 0, 0]), line, walkway=2)
    # orders and lags go by the shifts, which stay: 2 + 1
    for t, line in ((3, "feasible"), (2, "not feasible")):
        row([9, 9, 9], [[5, 1, 2], [1, 1, 1]], [0], ([0, 0, 0, 1], [0, 0, t, 0]), line, [(0, 1, 1)])
        row([9, 9, 9], [[5, 1, 2], [1, 1, 1]], [0, 1], ([0, 0, 0, 1], [0, 0, t, 1]), line, [(0, 1, 1)])
    # 13: on the first, a middle and the last of three pieces, whether they fit or not
    three = [[1, 1, 1]] * 3
    for may_turn, mark in BAD_MARKS:
        for item in range(3):
            starts = [[0, 0, 0, 0], [1, 0, 0, 0], [2, 0, 0, 0]]
            starts[item][3] = mark
            row([3, 1, 1], three, [item] if may_turn else [0, 1, 2][:item], starts, "refused 13 0")
        row([1, 1, 1], [[2, 2, 2]], [0] if may_turn else [], [[9, 9, 9, mark]], "refused 13 0")
    # ... and the last of ten; past the count a mark is ignored, and so is what may turn there
    ten = [[i, 0, 0, 1] for i in range(10)]
    row([10, 1, 1], [[1, 1, 1]] * 10, range(10), ten, "feasible")
    row([10, 1, 1], [[1, 1, 1]] * 10, range(9), ten, "refused 13 0")
    row([10, 1, 1], [[1, 1, 1]] * 9, range(9), ten, "feasible")
    row([10, 1, 1], [[1, 1, 1]] * 9, range(8), ten, "refused 13 0")
    for mark in (1, 2, 255):
        ten = [[i, 0, 0, mark if i >= 4 else i % 2] for i in range(10)]
        row([10, 1, 1], [[1, 1, 1]] * 4, range(10), ten, "feasible")
        row([10, 1, 1], [[1, 1, 1]] * 4, [1, 3], ten, "feasible")
        row([10, 1, 1], [[1, 1, 1]] * 4, [1, 9], ten, "refused 13 0")
        row([1, 1, 1], [], [], [[9, 9, 9, mark]] * 10, "feasible")
    # any byte other than 0 says that it may turn
    for byte in (2, 255):
        add_check({**instance([1, 2, 1], [[2, 1, 1]]), "may_turn": [byte] + [0] * 9}, packing([0, 0, 0, 1]), "feasible")
    # 9 comes before 13
    for number, value in enumerate(refused_values() + limit_values()):
        if number % 8 == 0:
            value = {**value, "may_turn": [1] * 10 if number % 16 == 0 else [0] * 10}
            add_check(value, packing(*[[0, 0, 0, 2]] * 10), "refused 9 0")
            add_clearance(value, packing(*[[0, 0, 0, 255]] * 10), 0, 1, 0, "refused 9 0")


def hand_turn_clearance():
    def row(turn, starts, u, v, lines):
        """On x, y and t."""
        value = instance([9, 9, 9], [[3, 5, 7], [2, 4, 6], [1, 1, 1]], turn=turn)
        for axis, line in enumerate(lines):
            add_clearance(value, packing(*starts), u, v, axis, "clearance %d" % line)

    # 0 is 3 x 5 x 7 and ends there; 1 starts at 9; with marks 0 is 5 x 3 x 7, and the mark of the later one does not count
    row([0, 1], ([0, 0, 0, 0], [9, 9, 9, 0]), 0, 1, (6, 4, 2))
    row([0, 1], ([0, 0, 0, 1], [9, 9, 9, 0]), 0, 1, (4, 6, 2))
    row([0, 1], ([0, 0, 0, 1], [9, 9, 9, 0]), 1, 0, (4, 6, 2))
    row([0, 1], ([0, 0, 0, 0], [9, 9, 9, 1]), 0, 1, (6, 4, 2))
    row([0, 1], ([0, 0, 0, 1], [9, 9, 9, 1]), 0, 1, (4, 6, 2))
    row([0], ([0, 0, 0, 1], [9, 9, 9, 0]), 0, 1, (4, 6, 2))
    # 1 is the earlier one: 2 x 4 x 6, turned 4 x 2 x 6
    row([0, 1], ([20, 20, 20, 1], [0, 0, 0, 0]), 0, 1, (18, 16, 14))
    row([0, 1], ([20, 20, 20, 0], [0, 0, 0, 1]), 0, 1, (16, 18, 14))
    row([1], ([20, 20, 20, 0], [0, 0, 0, 1]), 1, 0, (16, 18, 14))
    # overlaps: 0 ends at 3, 5, 7 or 5, 3, 7, and 1 starts at 1
    row([0, 1], ([0, 0, 0, 0], [1, 1, 1, 0]), 0, 1, (-2, -4, -6))
    row([0, 1], ([0, 0, 0, 1], [1, 1, 1, 0]), 0, 1, (-3, -2, -6))
    # ... where 1 turned ends at 5 and 3, the least of moves on x is 4, on y 2
    row([0, 1], ([0, 0, 0, 1], [1, 1, 1, 1]), 0, 1, (-4, -2, -6))
    # an item with itself
    row([0, 1], ([5, 6, 7, 1], [9, 9, 9, 1]), 0, 0, (-5, -3, -7))
    row([0, 1], ([5, 6, 7, 1], [9, 9, 9, 1]), 1, 1, (-4, -2, -6))
    row([0, 1], ([5, 6, 7, 1], [9, 9, 9, 0]), 1, 1, (-2, -4, -6))
    far = instance([1, 1, 1], [[4095, 1, 1]] * 2, turn=[0, 1])
    add_clearance(far, packing([0, 0, 0, 1], [65535, 65535, 0, 0]), 0, 1, 0, "clearance 65534")
    add_clearance(far, packing([0, 0, 0, 1], [65535, 65535, 0, 0]), 0, 1, 1, "clearance 61440")
    # 13: on u, on v, on a third piece; but 5 and 8 come first
    for may_turn, mark in BAD_MARKS:
        for item in range(3):
            starts = packing(*[[0, 0, 0, 0]] * 3)
            starts[item][3] = mark
            value = instance([9, 9, 9], [[3, 5, 7]] * 3, turn=[item] if may_turn else [])
            add_clearance(value, starts, 0, 1, item, "refused 13 0")
        if mark == 255:
            add_clearance(value, starts, 2, 2, 0, "refused 13 0")
            add_clearance(value, starts, 0, 3, 0, "refused 5 0")
            add_clearance(value, starts, 3, 0, 3, "refused 5 0")
            add_clearance(value, starts, 0, 1, 3, "refused 8 0")
    # past the count a mark is ignored
    past = instance([9, 9, 9], [[3, 5, 7]] * 2, turn=[0])
    for mark in (1, 2, 255):
        starts = packing([0, 0, 0, 1], [9, 9, 9, 0], *[[0, 0, 0, mark]] * 8)
        add_clearance(past, starts, 0, 1, 0, "clearance 4")
        add_clearance({**past, "item_count": 3, "items": [[3, 5, 7]] * 10}, starts, 0, 1, 0, "refused 13 0")
    nine = [[0, 0, 0, 0]] * 9 + [[0, 0, 0, 1]]
    add_clearance(instance([9, 9, 9], [[3, 5, 7]] * 10), packing(*nine), 0, 1, 0, "refused 13 0")
    add_clearance(instance([9, 9, 9], [[3, 5, 7]] * 9), packing(*nine), 0, 1, 0, "clearance -3")
    add_clearance(instance([9, 9, 9], [[3, 5, 7]] * 10, turn=[9]), packing(*nine), 0, 9, 0, "clearance -3")


def hand_turn_run():
    units = [[1, 1, 1]] * 3

    def row(turn, container, items, first, *starts, precedences=(), walkway=0):
        text = first + "\n" + "".join("%d %d %d %d %d\n" % (piece, *marked(start)) for piece, start in enumerate(starts))
        add_run(reference.encode(instance(container, items, precedences, walkway=walkway, turn=turn)), text)

    for sheet, line in (
        ("08 01 08", "placed 1\n0 0 0 0 0"),
        ("08 01 18", "refused 2 2"),
        ("08 01 09", "refused 1 3"),
        # the printed example with both pieces turnable: choice 0 is placed
        ("1D 02 00 02 00 02 09 02 00 08 01 01 00", "placed 1\n0 0 0 1 0\n1 0 0 0 0"),
        # 1 x 2 x 1 and a piece of 2 x 1: the first step opens choice 1, the second says placed
        ("0A 02 00 01 09 02 00", "placed 2\n0 0 0 0 1"),
    ):
        add_run(bytes.fromhex(sheet), line + "\n")
    # one piece that may turn has two choices: a step for one that is above the hall, and a step that says placed
    row([0], [2, 1, 1], [[2, 1, 1]], "placed 1", [0, 0, 0, 0])
    row([0], [1, 2, 1], [[2, 1, 1]], "placed 2", [0, 0, 0, 1])
    row([], [1, 2, 1], [[2, 1, 1]], "none 1")
    row([0], [2, 2, 1], [[2, 1, 1]], "placed 1", [0, 0, 0, 0])
    row([0], [1, 4095, 1], [[4095, 1, 1]], "placed 2", [0, 0, 0, 1])
    # none however turned: too large either way, too long, a square; the last step says none
    row([0], [1, 1, 1], [[2, 1, 1]], "none 2")
    row([0], [2, 2, 1], [[1, 3, 1]], "none 2")
    row([0], [2, 2, 1], [[1, 2, 2]], "none 2")
    row([0], [1, 1, 1], [[2, 2, 1]], "none 2")
    row([], [1, 1, 1], [[2, 2, 1]], "none 1")
    row([0, 1], [1, 1, 1], [[2, 2, 1]] * 2, "none 4")
    row([0, 1, 2], [1, 1, 1], [[2, 2, 1]] * 3, "none 8")
    row([0, 2], [1, 1, 1], [[2, 2, 1]] * 3, "none 4")
    # no exchange with the shifts: 1 x 2 x 3 and 2 x 1 x 3 are all there is
    row([0], [3, 2, 1], [[1, 2, 3]], "none 2")
    row([0], [1, 3, 2], [[1, 2, 3]], "none 2")
    row([0], [2, 3, 1], [[1, 2, 3]], "none 2")
    row([0], [2, 1, 3], [[1, 2, 3]], "placed 2", [0, 0, 0, 1])
    # 2 x 3 x 1; 1 x 2 and 3 x 1: 1 has to be turned, and 0 must not. Choices 0 and 1 have 1 above the hall, a step each. In choice 2 the depths
    # are 2 + 3 > 3, so the two are apart on x: a turn, and the step that says placed
    row([0, 1], [2, 3, 1], [[1, 2, 1], [3, 1, 1]], "placed 4", [0, 0, 0, 0], [1, 0, 0, 1])
    # the same with 0 and 1 exchanged: choice 1
    row([0, 1], [2, 3, 1], [[3, 1, 1], [1, 2, 1]], "placed 3", [0, 0, 0, 1], [1, 0, 0, 0])
    # the same with pieces before and between that may not turn, one after another by orders, so that no turns are needed: digits are those of
    # 1 and 3, and 3 has to be turned: choices 0 and 1 have it above the hall, choice 2 is placed
    chain = [(0, 1), (1, 2), (2, 3)]
    stand = [[0, 0, 0, 0], [0, 0, 1, 0], [0, 0, 2, 0], [0, 0, 3, 1]]
    row([1, 3], [1, 2, 4], [[1, 1, 1], [1, 2, 1], [1, 1, 1], [2, 1, 1]], "placed 3", *stand, precedences=chain)
    # a square is a digit: 1 x 3 x 1; 1 x 1 and 2 x 1, which has to be turned: choice 2, two steps before it, a turn on y and placed
    row([0, 1], [1, 3, 1], [[1, 1, 1], [2, 1, 1]], "placed 4", [0, 0, 0, 0], [0, 1, 0, 1])
    row([1], [1, 3, 1], [[1, 1, 1], [2, 1, 1]], "placed 3", [0, 0, 0, 0], [0, 1, 0, 1])
    # ... and on t in 1 x 2 x 2, where the depths are 1 + 2 > 2
    row([0, 1], [1, 2, 2], [[1, 1, 1], [2, 1, 1]], "placed 4", [0, 0, 0, 0], [0, 0, 1, 1])
    # 5 x 3 x 1; two of 3 x 2. Choice 0: 3 + 3 > 5 and 2 + 2 > 3, contradictory. Choice 1: 2 + 3 on x, a turn, placed
    row([0, 1], [5, 3, 1], [[3, 2, 1]] * 2, "placed 3", [0, 0, 0, 1], [2, 0, 0, 0])
    row([1], [5, 3, 1], [[3, 2, 1]] * 2, "placed 3", [0, 0, 0, 0], [3, 0, 0, 1])
    row([], [5, 3, 1], [[3, 2, 1]] * 2, "none 1")
    # 4 x 3 x 1: 2 + 3 > 4 as well, so choices 1 and 2 fall too; choice 3 has 2 + 2. With a shift more, choice 0 has them one after another
    row([0, 1], [4, 3, 1], [[3, 2, 1]] * 2, "placed 5", [0, 0, 0, 1], [2, 0, 0, 1])
    row([0, 1], [4, 3, 2], [[3, 2, 1]] * 2, "placed 2", [0, 0, 0, 0], [0, 0, 1, 0])
    # 3 x 3 x 1: 2 + 2 > 3, and no choice is left
    row([0, 1], [3, 3, 1], [[3, 2, 1]] * 2, "none 4")
    # 2 x 1 x 1; three units: none 3 in document 01, so 3 for each choice
    row([1], [2, 1, 1], units, "none 6")
    row([0, 2], [2, 1, 1], units, "none 12")
    row([0, 1, 2], [2, 1, 1], units, "none 24")
    # 2 x 2 x 2; two units: placed 3, in choice 0
    row([0, 1], [2, 2, 2], units[:2], "placed 3", [0, 0, 0, 0], [1, 0, 0, 0])
    # 4 x 2 x 1; 2 x 2, 1 x 2 and 2 x 1, which may turn. On y and t every two overlap (2 + 1 > 2), so all are apart on x, where 2 + 1 + 2 > 4.
    # Choice 0: a turn, 0 before 1; then neither 1 before 2 nor 2 before 0 has room, so 0, 2, 1 in this sequence, which has none: contradictory.
    # The second turn ends so too: 3 steps. Choice 1 has 2 + 1 + 1: a turn for each pair, and placed: 4 steps
    row([2], [4, 2, 1], [[2, 2, 1], [1, 2, 1], [2, 1, 1]], "placed 7", [0, 0, 0, 0], [2, 0, 0, 0], [3, 0, 0, 1])
    # orders: none 1 for each choice
    row([0, 1], [2, 1, 1], [[2, 1, 1], [1, 1, 1]], "none 4", precedences=[(1, 0)])
    row([0, 1, 2], [3, 1, 3], units, "none 8", precedences=[(0, 1), (1, 2), (2, 0)])
    # lags: both of 1 x 2 have to be turned on a depth of 1, choice 3; 1 + 2 + 1 shifts
    row([0, 1], [2, 1, 4], [[1, 2, 1]] * 2, "placed 4", [0, 0, 0, 1], [0, 0, 3, 1], precedences=[(0, 1, 2)])
    row([0, 1], [2, 1, 3], [[1, 2, 1]] * 2, "none 4", precedences=[(0, 1, 2)])
    # a walkway of 1 on 3 x 2: two of 2 x 1 have 2 + 1 + 2 > 3 and 1 + 1 + 1 > 2; one of them turned 1 + 1 + 2 > 3; both 1 + 1 + 1 on x
    row([0, 1], [3, 2, 1], [[2, 1, 1]] * 2, "placed 5", [0, 0, 0, 1], [2, 0, 0, 1], walkway=1)
    row([0, 1], [3, 2, 1], [[2, 1, 1]] * 2, "none 4", walkway=2)
    # ten on 1 x 2, one after another by orders: those of 2 x 1 have to be turned, those of 1 x 2 must not, so that one choice fits, and each
    # before it takes a step
    chain = [(piece, piece + 1) for piece in range(9)]
    for turned in ([0], [8], [9], [0, 8], [0, 3, 9], list(range(10))):
        items = [[2, 1, 1] if piece in turned else [1, 2, 1] for piece in range(10)]
        starts = [[0, 0, piece, int(piece in turned)] for piece in range(10)]
        steps = sum(2 ** piece for piece in turned) + 1
        row(range(10), [1, 2, 10], items, "placed %d" % steps, *starts, precedences=chain)
    # ... of nine that may turn, 4 is not one: the digit of 9 is the ninth, 256
    items = [[2, 1, 1] if piece == 9 else [1, 2, 1] for piece in range(10)]
    starts = [[0, 0, piece, int(piece == 9)] for piece in range(10)]
    row([0, 1, 2, 3, 5, 6, 7, 8, 9], [1, 2, 10], items, "placed 257", *starts, precedences=chain)
    # ... and all choices, one step each
    row(range(10), [1, 2, 10], items[:9] + [[1, 1, 11]], "none 1024", precedences=chain)
    row(range(9), [1, 1, 1], [[1, 1, 2]] * 10, "none 512")
    add_run(LONGEST_WITH_TURNS, "none 1024\n")


def hand_turn_finish():
    def spent(value, lengths):
        """For each allowance, from 0 up, the length that it shows."""
        for allowance, length in enumerate(lengths):
            add_finish(value, allowance, "finish 0 %d %d" % (length, allowance) + " 0" * 40)

    def decided(value, answer, length, steps, *starts):
        line = "finish %d %d %d" % (answer, length, steps)
        line += "".join(" %d %d %d %d" % tuple(start) for start in packing(*starts))
        for allowance in (steps, GREATEST):
            add_finish(value, allowance, line)

    # no pieces: nothing may turn, whatever is past the count
    decided(instance([1, 1, 9], turn=range(10)), 1, 1, 1)
    # 2 x 1 x 2, which has to be turned: each length has both choices, 2 steps
    value = instance([1, 2, 3], [[2, 1, 2]], turn=[0])
    spent(value, [0, 0, 1, 1])
    decided(value, 1, 2, 4, [0, 0, 0, 1])
    value = instance([1, 2, 1], [[2, 1, 2]], turn=[0])
    spent(value, [0, 0])
    decided(value, 2, 0, 2)
    # ... which must not: 2 steps, and placed in the first of the second length
    value = instance([2, 1, 3], [[2, 1, 2]], turn=[0])
    spent(value, [0, 0, 1])
    decided(value, 1, 2, 3, [0, 0, 0, 0])
    # a square
    value = instance([1, 1, 9], [[1, 1, 3]], turn=[0])
    spent(value, [0, 0, 1, 1, 2])
    decided(value, 1, 3, 5, [0, 0, 0, 0])
    # no length is enough, however turned
    value = instance([1, 1, 3], [[2, 1, 1]], turn=[0])
    spent(value, [0, 0, 1, 1, 2, 2])
    decided(value, 2, 0, 6)
    # 4 x 3, two of 3 x 2: in 1 shift choice 3, after 3 steps; that in 2 shifts choice 0 has room is not asked
    value = instance([4, 3, 5], [[3, 2, 1]] * 2, turn=[0, 1])
    spent(value, [0, 0, 0, 0, 0])
    decided(value, 1, 1, 5, [0, 0, 0, 1], [2, 0, 0, 1])
    # 3 x 3: no choice in 1 shift, 4 steps; choice 0 in 2, a turn and placed
    value = instance([3, 3, 5], [[3, 2, 1]] * 2, turn=[0, 1])
    spent(value, [0, 0, 0, 0, 1, 1])
    decided(value, 1, 2, 6, [0, 0, 0, 0], [0, 0, 1, 0])
    # 2 x 1, three units: none 3 for each of two choices, then as without a choice 5 steps
    value = instance([2, 1, 4], [[1, 1, 1]] * 3, turn=[1])
    spent(value, [0] * 6 + [1] * 5)
    decided(value, 1, 2, 11, [0, 0, 0, 0], [1, 0, 0, 0], [1, 0, 1, 0])
    # 4 x 2: the seven steps of the run, 3 in choice 0
    value = instance([4, 2, 9], [[2, 2, 1], [1, 2, 1], [2, 1, 1]], turn=[2])
    spent(value, [0] * 7)
    decided(value, 1, 1, 7, [0, 0, 0, 0], [2, 0, 0, 0], [3, 0, 0, 1])
    # a lag: both have to be turned, 4 choices in each of the lengths 1 to 3; then 3 steps, and placed
    value = instance([2, 1, 9], [[1, 2, 1]] * 2, [(0, 1, 2)], turn=[0, 1])
    spent(value, [step // 4 for step in range(16)])
    decided(value, 1, 4, 16, [0, 0, 0, 1], [0, 0, 3, 1])
    # a walkway of 1 on 3 x 2: choice 3 in 1 shift
    value = instance([3, 2, 9], [[2, 1, 1]] * 2, walkway=1, turn=[0, 1])
    decided(value, 1, 1, 5, [0, 0, 0, 1], [2, 0, 0, 1])
    # ten that may turn: 1,024 choices in each length
    value = instance([1, 1, 3], [[1, 1, 4]] * 10, turn=range(10))
    for allowance, length in ((1023, 0), (1024, 1), (1025, 1), (2047, 1), (2048, 2), (3071, 2)):
        add_finish(value, allowance, "finish 0 %d %d" % (length, allowance) + " 0" * 40)
    decided(value, 2, 0, 3072)
    # what is past the count may turn, and is no part of it: two choices a length
    value = instance([1, 2, 3], [[2, 1, 2]], turn=range(10))
    value["items"][1:] = [[7, 0, 65535] for _ in range(9)]
    spent(value, [0, 0, 1, 1])
    decided(value, 1, 2, 4, [0, 0, 0, 1])
    # number 9
    for number, value in enumerate(refused_values()):
        if number % 16 == 0:
            add_finish({**value, "may_turn": [1] * 10}, number, "refused 9 0")


# Made: from a fixed seed


class Numbers:
    """A fixed sequence of numbers (a linear congruence modulo 2 to the 64, its upper half)."""

    def __init__(self, seed):
        self.state = seed

    def below(self, n):
        self.state = (self.state * 6364136223846793005 + 1442695040888963407) % 2 ** 64
        return (self.state // 2 ** 32) * n // 2 ** 32

    def between(self, low, high):
        return low + self.below(high - low + 1)

    def one_of(self, entries):
        return entries[self.below(len(entries))]


def some_number(numbers):
    """A measure as it was before request #104, or a start: 1 to 65,535."""
    return numbers.one_of([1, 1, 2, 3, 255, 256, 257, 65535, numbers.between(1, 65535), numbers.between(1, 300)])


def counted_sizes(value):
    """The container's measures and those of the items up to the count."""
    return [value["container"]] + value["items"][: min(value["item_count"], 10)]


def lowered_value(value):
    """The value with its measures above 4,095 divided by 16, which leaves 256 to 4,095; with none above, the value as it is."""
    value = copied(value)
    for size in counted_sizes(value):
        size[:] = [measure // 16 if measure > reference.MAX_MEASURE else measure for measure in size]
    return value


def after_bit_3(sheet, at):
    """Whether an item's map byte before that place has bit 3; reading gets there."""
    fields = lambda byte: 2 * bin(byte % 8).count("1")
    start = 1 + fields(sheet[0]) + 1
    while start < at:
        if sheet[start] & 8:
            return True
        start += 1 + fields(sheet[start])
    return False


def lowered(sheet):
    """The sheet with the same done to the measures that reading meets; all other bytes as they are, and with them the other faults. What is
    after a first byte with bit 7 is left as it was: before request #105 reading went no further, and met no measure. So is what is after an
    item's map byte with bit 3, where reading ended before request #106."""
    if sheet[:1] >= b"\x80":
        return sheet
    answer = reference.read(sheet)
    while is_refused(answer) and answer[0] == 12 and not after_bit_3(sheet, answer[1]):
        place = answer[1]
        measure = int.from_bytes(sheet[place : place + 2], "little")
        sheet = sheet[:place] + little(measure // 16, 2) + sheet[place + 2 :]
        answer = reference.read(sheet)
    return sheet


def some_precedences(numbers, n):
    pairs = [(u, v) for u in range(n) for v in range(n) if u != v]
    share = numbers.one_of([0, 0, 1, 2, 5, 10])
    return [pair for pair in pairs if numbers.below(10) < share]


def some_instance(numbers):
    n = numbers.below(11)
    return instance(
        [some_number(numbers) for _ in range(3)],
        [[some_number(numbers) for _ in range(3)] for _ in range(n)],
        some_precedences(numbers, n),
        numbers.one_of([0, 0, 1, 255, 256, 65535, numbers.below(65536)]),
    )


def some_sheet(numbers):
    return reference.encode(some_instance(numbers))


def damaged(numbers, sheet):
    """The sheet with one byte changed, one bit turned, one byte taken away or one put in."""
    at = numbers.below(len(sheet))
    if numbers.below(3) == 0:
        at = min(at, numbers.below(8))
    way = numbers.below(8)
    if way < 3:
        return sheet[:at] + bytes([numbers.one_of([0, 1, 2, 8, 10, 11, 91, 255])]) + sheet[at + 1 :]
    if way < 6:
        return sheet[:at] + bytes([sheet[at] ^ 2 ** numbers.below(8)]) + sheet[at + 1 :]
    if way < 7:
        return sheet[:at] + sheet[at + 1 :]
    return sheet[:at] + bytes([numbers.below(12)]) + sheet[at:]


def made_reads(numbers):
    middle = reference.encode(instance([7, 1, 300], [[2, 1, 3], [1, 1, 1], [4, 5, 6]], [(0, 1), (2, 0)], 9))
    for sheet in (EXAMPLE, middle, LONGEST):
        for length in range(len(sheet)):
            add_read(sheet[:length])
    for _ in range(80):
        sheet = some_sheet(numbers)
        add_read(lowered(sheet))
        add_rewrite(lowered(sheet))
        for _ in range(3):
            add_read(lowered(damaged(numbers, sheet)))
    for _ in range(60):
        add_read(lowered(bytes(numbers.one_of([0, 1, 2, 3, 8, 16, 24, 32, 63, 255]) for _ in range(numbers.below(12)))))
    add_rewrite(LONGEST)
    add_rewrite(EXAMPLE)
    add_rewrite(b"\0")
    add_rewrite(b"")
    for _ in range(20):
        add_rewrite(lowered(damaged(numbers, some_sheet(numbers))))


def made_records(numbers):
    for _ in range(60):
        sheet = some_sheet(numbers)
        add_record(lowered(sheet), numbers.below(4))
        add_record(lowered(sheet), numbers.below(12))
        add_record(lowered(damaged(numbers, sheet)), numbers.below(10))


def made_writes(numbers):
    for _ in range(60):
        value = some_instance(numbers)
        length = len(reference.encode(value))
        for i in range(value["item_count"], 10):
            value["items"][i] = [numbers.below(3), numbers.below(3), numbers.below(65536)]
        for i in range(value["precedence_count"], 90):
            value["precedences"][i] = [numbers.below(256), numbers.below(12), 0]
        room = numbers.one_of([length - 1, length, length, length + 1, length + 2, numbers.below(300)])
        add_write(lowered_value(value), room, fill=numbers.below(256))
        add_valid(lowered_value(value), "valid")
        fault = copied(value)
        way = numbers.below(4)
        if way == 0:
            fault["container"][numbers.below(3)] = 0
        elif way == 1:
            fault["items"][numbers.below(10)][numbers.below(3)] = 0
        elif way == 2:
            fault["precedences"][numbers.below(90)][numbers.below(2)] = numbers.below(11)
        else:
            fault["item_count"] = numbers.below(13)
        add_valid(lowered_value(fault))
        add_write(lowered_value(fault), 265, fill=numbers.below(256))


def packed(numbers, value, tries):
    """Positions found one item after another at random; where none is found the item stays at the origin."""
    positions = packing()
    for item in range(value["item_count"]):
        part = copied(value)
        part["item_count"] = item + 1
        part["precedences"] = [one for one in value["precedences"][: value["precedence_count"]] if max(one[:2]) <= item]
        part["precedence_count"] = len(part["precedences"])
        for _ in range(tries):
            positions[item][:3] = [numbers.below(part["container"][a]) for a in range(3)]
            if reference.feasible(part, positions):
                break
    return positions


def made_checks(numbers):
    # two cubes of 2, the second around the corner of the first
    cubes = instance([5, 5, 5], [[2, 2, 2], [2, 2, 2]])
    for x in (1, 2, 3):
        for y in (1, 2, 3):
            for t in (1, 2, 3):
                add_check(cubes, packing([0, 0, 0], [x, y, t]), "feasible" if 2 <= max(x, y, t) else "not feasible")
    for _ in range(90):
        n = numbers.between(1, 7)
        container = [numbers.between(3, 6) for _ in range(3)]
        items = [[numbers.between(1, 3) for _ in range(3)] for _ in range(n)]
        value = instance(container, items, [p for p in some_precedences(numbers, n) if p[0] < p[1]][: numbers.below(3)])
        positions = packed(numbers, value, 60)
        for i in range(n, 10):
            positions[i][:3] = [numbers.below(65536) for _ in range(3)]
        add_check(value, positions)
        item = numbers.below(n)
        axis = numbers.below(3)
        positions[item][axis] = max(0, positions[item][axis] + numbers.one_of([-1, 1]))
        add_check(value, positions)


def made_clearances(numbers):
    for _ in range(50):
        value = lowered_value(some_instance(numbers))
        positions = packing(*[[some_number(numbers) - 1 for _ in range(3)] for _ in range(10)])
        u, v = numbers.below(11), numbers.below(11)
        add_clearance(value, positions, u, v, numbers.below(4))
        if value["item_count"] > 0:
            u, v = u % value["item_count"], v % value["item_count"]
            add_clearance(value, positions, u, v, numbers.below(3))
            add_clearance(value, positions, v, u, numbers.below(3))


def with_lags(numbers, value):
    """The value with lags for its orders, most of them small."""
    for precedence in value["precedences"][: value["precedence_count"]]:
        precedence[2] = numbers.one_of([0, 0, 1, 2, 3, 255, numbers.below(256)])
    return value


def made_lag_reads(numbers):
    made = 0
    while made < 50:
        value = some_instance(numbers)
        if value["precedence_count"] > 0 or numbers.below(10) == 0:
            sheet = reference.encode(with_lags(numbers, value))
            field = len(sheet) - value["precedence_count"]
            made += 1
            add_read(lowered(sheet))
            add_rewrite(lowered(sheet))
            add_record(lowered(sheet), numbers.below(11))
            add_read(lowered(damaged(numbers, sheet)))
            add_read(lowered(damaged(numbers, damaged(numbers, sheet))))
            add_read(lowered(bytes([sheet[0] ^ 64]) + sheet[1:]))
            add_read(lowered(sheet[:field] + bytes(len(sheet) - field) + bytes(numbers.below(2))))


def made_lag_writes(numbers):
    for _ in range(40):
        value = with_lags(numbers, some_instance(numbers))
        length = len(reference.encode(value))
        for i in range(value["precedence_count"], 90):
            value["precedences"][i] = [numbers.below(12), numbers.below(12), numbers.below(256)]
        add_write(lowered_value(value), numbers.one_of([length - 1, length, length + 1, 351, 352, MOST_ROOM]), fill=numbers.below(256))
        add_valid(lowered_value(value), "valid")
        fault = copied(value)
        fault["precedence_count"] = numbers.below(min(90, value["precedence_count"] + 2) + 1)
        add_valid(lowered_value(fault))
        add_write(lowered_value(fault), 351, fill=numbers.below(256))


def small_with_lags(numbers, most):
    """A small instance with lags in a hall that is about as long as they need."""
    n = numbers.between(2, most)
    container = [numbers.between(2, 4), numbers.one_of([1, 1, 2]), 2]
    items = [[numbers.between(1, m) for m in (container[0], container[1], 2)] for _ in range(n)]
    pairs = [p for p in some_precedences(numbers, n) if p[0] < p[1]] or [(0, 1)]
    most_lag = numbers.one_of([1, 2, 3, 200])
    precedences = [pair + (numbers.below(most_lag + 1),) for pair in pairs]
    ends = [0] * n
    for v in range(n):
        before = [ends[u] + lag for u, w, lag in precedences if w == v]
        ends[v] = max(before, default=0) + items[v][2]
    container[2] = max(2, max(ends) + numbers.one_of([-1, 0, 0, 0, 1, 2]))
    return instance(container, items, precedences)


def made_lag_checks(numbers):
    for _ in range(40):
        value = small_with_lags(numbers, 5)
        state, _, _, positions = reference.run(value, 100)
        if state != reference.PLACED:
            positions = packed(numbers, value, 60)
        for i in range(value["item_count"], 10):
            positions[i][:3] = [numbers.below(65536) for _ in range(3)]
        add_check(value, positions)
        u, v, lag = value["precedences"][numbers.below(value["precedence_count"])]
        positions[v][2] = positions[u][2] + value["items"][u][2] + lag + numbers.below(2) - 1
        add_check(value, positions)


def made_lag_runs(numbers):
    made = 0
    while made < 60:
        value = small_with_lags(numbers, 5)
        if reference.run(value, 60)[0] != reference.OPEN:
            add_run(reference.encode(value))
            made += 1


def with_anything_past(numbers, value):
    """The value with anything past its counts."""
    for i in range(value["item_count"], 10):
        value["items"][i] = [numbers.below(3) for _ in range(3)]
    for i in range(value["precedence_count"], 90):
        value["precedences"][i] = [numbers.below(12), numbers.below(12), numbers.below(256)]
    return value


def sums_of_lengths(value, most):
    """The steps up to the end of each length, up to the answer; None where they are more than that."""
    sums = []
    for length in range(1, value["container"][2] + 1):
        state, taken, _, _ = reference.run(reference.with_shifts(value, length), most)
        sums.append((sums[-1] if sums else 0) + taken)
        if state == reference.OPEN or sums[-1] > most:
            return None
        if state == reference.PLACED:
            break
    return sums


def made_finishes(numbers):
    made = 0
    while made < 24:
        value = small_with_lags(numbers, 5)
        if numbers.below(3) == 0:
            value = instance(value["container"], value["items"][: value["item_count"]])
        value["container"][2] = max(1, value["container"][2] + numbers.one_of([-1, 0, 0, 1, 5]))
        sums = sums_of_lengths(value, 200)
        if sums is not None and len(sums) > 1:
            made += 1
            with_anything_past(numbers, value)
            between, total = numbers.one_of(sums[:-1]), sums[-1]
            for allowance in sorted({between - 1, between, between + 1, total - 1, total, numbers.one_of([total + 1, GREATEST])}):
                add_finish(value, allowance)


def some_limit(numbers):
    """A measure about 4,095, or above it."""
    return numbers.one_of([4094, 4095, 4095, 4096, 4096, 4097, 8191, 32768, 65535, numbers.between(4096, 65535)])


def about_the_limit(numbers):
    """A value with small measures, but for one or two about 4,095, in the container or in an item, up to the count or past it."""
    value = lowered_value(some_instance(numbers))
    for _ in range(numbers.between(1, 2)):
        size = numbers.one_of([value["container"], numbers.one_of(value["items"]), numbers.one_of(counted_sizes(value))])
        size[numbers.below(3)] = some_limit(numbers)
    return value


def made_limits(numbers):
    for _ in range(40):
        sheet = reference.encode(with_lags(numbers, about_the_limit(numbers)))
        add_read(sheet)
        add_read(damaged(numbers, sheet))
        add_read(sheet[: numbers.below(len(sheet))])
        add_rewrite(sheet)
        add_record(sheet, numbers.below(11))
    # measures as they were made before
    for _ in range(40):
        sheet = some_sheet(numbers)
        add_read(sheet)
        add_read(damaged(numbers, sheet))
    for _ in range(16):
        value = about_the_limit(numbers)
        length = len(reference.encode(value))
        add_valid(value)
        add_write(value, numbers.one_of([0, length - 1, length, 351]), fill=numbers.below(256))
        add_check(value, packing(*[[some_number(numbers) - 1 for _ in range(3)] for _ in range(10)]))
        add_clearance(value, packing(), numbers.below(11), numbers.below(11), numbers.below(4))
        add_finish(value, numbers.below(4))


def some_walkway(numbers):
    return numbers.one_of([1, 1, 2, 3, 127, 128, 255, numbers.between(1, 255)])


def with_walkway(numbers, value):
    """The value with measures up to 4,095, a walkway, and lags in half the cases."""
    value = lowered_value(value)
    if numbers.below(2) == 0:
        with_lags(numbers, value)
    value["walkway"] = some_walkway(numbers)
    return value


def made_walkway_reads(numbers):
    for _ in range(45):
        sheet = reference.encode(with_walkway(numbers, some_instance(numbers)))
        add_read(sheet)
        add_rewrite(sheet)
        add_record(sheet, numbers.below(11))
        add_read(damaged(numbers, sheet))
        add_read(damaged(numbers, damaged(numbers, sheet)))
        add_read(sheet[:-1] + bytes(1 + numbers.below(2)))
        add_read(numbers.one_of([sheet[:-1], sheet + bytes([numbers.below(3)]), bytes([sheet[0] ^ 128]) + sheet[1:], bytes([sheet[0] ^ 64]) + sheet[1:]]))
    for _ in range(40):
        add_read(bytes([numbers.between(128, 255)]) + bytes(numbers.one_of([0, 1, 2, 3, 5, 8, 255]) for _ in range(numbers.below(12))))


def made_walkway_writes(numbers):
    for _ in range(30):
        value = with_anything_past(numbers, with_walkway(numbers, some_instance(numbers)))
        value["walkway"] = numbers.one_of([0, value["walkway"], value["walkway"], value["walkway"]])
        length = len(reference.encode(value))
        add_write(value, numbers.one_of([length - 1, length, length, length + 1, 352, MOST_ROOM]), fill=numbers.below(256))
        fault = copied(value)
        fault["precedence_count"] = numbers.below(min(90, value["precedence_count"] + 2) + 1)
        fault["item_count"] = numbers.one_of([value["item_count"], value["item_count"], numbers.below(13)])
        add_valid(fault)
        add_write(fault, 352, fill=numbers.below(256))


def small_with_walkway(numbers, most):
    """A small instance with a walkway, on a floor that has a passage or two to spare; in half the cases with lags."""
    value = small_with_lags(numbers, most)
    if numbers.below(2) == 0:
        value = instance(value["container"], value["items"][: value["item_count"]])
        value["container"][2] = numbers.one_of([1, 2, 2, 3])
    walkway = numbers.one_of([1, 1, 2, 3, 200, 255])
    value["walkway"] = walkway
    for axis in (0, 1):
        value["container"][axis] += numbers.one_of([0, walkway - 1, walkway, walkway, walkway + 1, 2 * walkway])
    return value


def made_walkway_checks(numbers):
    for _ in range(36):
        value = small_with_walkway(numbers, 5)
        state, _, _, positions = reference.run(value, 100)
        if state != reference.PLACED:
            positions = packed(numbers, value, 60)
        for i in range(value["item_count"], 10):
            positions[i][:3] = [numbers.below(65536) for _ in range(3)]
        add_check(value, positions)
        # another piece just the walkway after one, or one module less, in its shift
        u, v = numbers.below(value["item_count"]), numbers.below(value["item_count"])
        axis = numbers.below(2)
        positions[v] = list(positions[u])
        positions[v][axis] += value["items"][u][axis] + value["walkway"] - numbers.below(2)
        add_check(value, positions)
    for _ in range(10):
        value = with_walkway(numbers, some_instance(numbers))
        positions = packing(*[[some_number(numbers) - 1 for _ in range(3)] for _ in range(10)])
        add_clearance(value, positions, numbers.below(11), numbers.below(11), numbers.below(4))


def made_walkway_runs(numbers):
    made = 0
    while made < 70:
        value = small_with_walkway(numbers, 5)
        if reference.run(value, 60)[0] != reference.OPEN:
            add_run(reference.encode(value))
            made += 1


def made_walkway_finishes(numbers):
    made = 0
    while made < 16:
        value = small_with_walkway(numbers, 5)
        value["container"][2] = max(1, value["container"][2] + numbers.one_of([-1, 0, 0, 1, 5]))
        sums = sums_of_lengths(value, 200)
        if sums is not None and len(sums) > 1:
            made += 1
            with_anything_past(numbers, value)
            between, total = numbers.one_of(sums[:-1]), sums[-1]
            for allowance in sorted({between - 1, between, total - 1, total, numbers.one_of([total + 1, GREATEST])}):
                add_finish(value, allowance)


def with_turns(numbers, value):
    """The value with some items that may turn, up to the count and past it."""
    share = numbers.one_of([1, 1, 2, 3])
    value["may_turn"] = [int(numbers.below(4) < share) for _ in range(10)]
    return value


def made_turn_reads(numbers):
    for _ in range(45):
        value = with_turns(numbers, with_walkway(numbers, some_instance(numbers)))
        value["walkway"] = numbers.one_of([0, 0, value["walkway"]])
        sheet = reference.encode(value)
        add_read(sheet)
        add_rewrite(sheet)
        add_record(sheet, numbers.below(11))
        add_read(damaged(numbers, sheet))
        add_read(damaged(numbers, damaged(numbers, sheet)))
        add_record(damaged(numbers, sheet), numbers.below(10))
        if value["item_count"] > 0:
            # a bit of an item's map
            start, _ = reference.read_or_raise(sheet)[1][numbers.below(value["item_count"])]
            add_read(sheet[:start] + bytes([sheet[start] ^ 2 ** numbers.below(8)]) + sheet[start + 1 :])
    for _ in range(30):
        n = numbers.between(1, 3)
        add_read(bytes([8, n]) + bytes(numbers.one_of([0, 0, 8, 8, 8, 9, 10, 12, 16, 2, 3]) for _ in range(n + numbers.below(5))))


def made_turn_writes(numbers):
    for _ in range(24):
        value = with_anything_past(numbers, with_turns(numbers, with_walkway(numbers, some_instance(numbers))))
        length = len(reference.encode(value))
        add_write(value, numbers.one_of([length - 1, length, length, length + 1, 352, MOST_ROOM]), fill=numbers.below(256))
        fault = copied(value)
        fault["item_count"] = numbers.below(13)
        add_valid(fault)
        add_write(fault, 352, fill=numbers.below(256))


def small_with_turns(numbers, most):
    """A small instance in which some items may turn, on a floor that is about as large as they need; at times with lags and a walkway."""
    n = numbers.between(1, most)
    floor = [numbers.between(2, 5), numbers.between(1, 4)]
    items = [[numbers.between(1, floor[0]), numbers.between(1, floor[1]), numbers.one_of([1, 1, 2])] for _ in range(n)]
    precedences = []
    if numbers.below(3) == 0:
        precedences = [pair + (numbers.one_of([0, 0, 1, 2]),) for pair in some_precedences(numbers, n) if pair[0] < pair[1]]
    value = instance(floor + [numbers.one_of([1, 1, 2, 2, 3, 4])], items, precedences, walkway=numbers.one_of([0, 0, 0, 1, 2]))
    with_turns(numbers, value)
    # some of them lie the other way round, so that they have to be turned
    for item in range(n):
        if value["may_turn"][item] and numbers.below(2) == 0:
            value["items"][item][:2] = value["items"][item][1::-1]
    return value


def with_bad_mark(numbers, value, positions):
    """At times a mark is changed, so that it may not stand."""
    if numbers.below(3) == 0:
        item = numbers.below(min(10, value["item_count"] + 1))
        positions[item][3] = numbers.one_of([0, 1, 1, 2, 255])
    return positions


def made_turn_checks(numbers):
    for _ in range(36):
        value = small_with_turns(numbers, 5)
        state, _, _, positions = reference.run(value, 100)
        if state != reference.PLACED:
            marks = [numbers.below(2) if may_turn else 0 for may_turn in value["may_turn"]]
            positions = packed(numbers, reference.turned(value, marks), 60)
            positions = [position[:3] + [mark] for position, mark in zip(positions, marks)]
        for item in range(value["item_count"], 10):
            positions[item] = [numbers.below(65536) for _ in range(3)] + [numbers.one_of([0, 1, 2, 255])]
        add_check(value, positions)
        # a piece turned over, or moved by a module
        item = numbers.below(value["item_count"])
        if value["may_turn"][item] and numbers.below(2) == 0:
            positions[item][3] = 1 - positions[item][3]
        else:
            axis = numbers.below(2)
            positions[item][axis] = max(0, positions[item][axis] + numbers.one_of([-1, 1]))
        add_check(value, with_bad_mark(numbers, value, positions))
    for _ in range(30):
        value = with_turns(numbers, lowered_value(some_instance(numbers)))
        marks = [numbers.below(2) if may_turn else 0 for may_turn in value["may_turn"]]
        positions = packing(*[[some_number(numbers) - 1 for _ in range(3)] + [mark] for mark in marks])
        n = max(1, value["item_count"])
        u, v = numbers.one_of([numbers.below(n), numbers.below(11)]), numbers.one_of([numbers.below(n), numbers.below(11)])
        add_clearance(value, with_bad_mark(numbers, value, positions), u, v, numbers.one_of([0, 1, 2, numbers.below(4)]))


def made_turn_runs(numbers):
    made = 0
    while made < 110:
        value = small_with_turns(numbers, 5)
        state, steps, (_, choice), _ = reference.run(value, 90)
        # most of those that end in choice 0, or take no more than a step for each choice, are left out
        plain = steps == choice + 1 or choice == 0
        if state != reference.OPEN and not (plain and numbers.below(10) > 0):
            add_run(reference.encode(value))
            made += 1


def made_turn_finishes(numbers):
    made = 0
    while made < 14:
        value = small_with_turns(numbers, 4)
        sums = sums_of_lengths(value, 150)
        if sums is not None and len(sums) > 1 and reference.last_choice(value) > 0:
            made += 1
            with_anything_past(numbers, value)
            between, total = numbers.one_of(sums[:-1]), sums[-1]
            for allowance in sorted({between - 1, between, total - 1, total, numbers.one_of([total + 1, numbers.below(total), GREATEST])}):
                add_finish(value, allowance)


# Beside an older pair of files


def cases_in(stdin, stdout):
    """Each case with its line."""
    found, at, lines_left = [], 0, stdout.decode().split("\n")
    while at < len(stdin):
        start = at + 3
        at = start + int.from_bytes(stdin[start - 2 : start], "little")
        op, payload = stdin[start - 3], stdin[start:at]
        line = [lines_left.pop(0)]
        while op == RUN and line[-1] != "":
            line.append(lines_left.pop(0))
        found.append((op, payload, "\n".join(line)))
    assert lines_left == [""]
    return found


SHEET_KINDS = (READ, RECORD, REWRITE, RUN)

# How many bytes of an instance, and of the instance and the positions, were there before the bytes that say what may turn, and the marks.
BEFORE, BEFORE_MARKS = 355, 415


def as_now(op, payload, line):
    """An older case with its line: in an instance nothing may turn, and every mark is 0; all else is as it was."""
    if op not in SHEET_KINDS:
        end = BEFORE_MARKS if op in (CHECK, CLEARANCE) else BEFORE
        marks = bytes(10) if op in (CHECK, CLEARANCE) else b""
        payload = payload[:BEFORE] + bytes(10) + payload[BEFORE:end] + marks + payload[end:]
    words = line.split(" ")
    if op == FINISH and words[0] == "finish":
        line = " ".join(words[:4] + [word + (" 0" if number % 3 == 2 else "") for number, word in enumerate(words[4:])])
    if op == RUN:
        first, *rest = line.split("\n")
        line = "\n".join([first] + [one and one + " 0" for one in rest])
    return op, payload, line


def had_bit_3(op, payload, line):
    """Whether the case is a sheet that got 2 for an item's map byte with bit 3, and bits 4 to 7 of it do not stand."""
    words = line.split()
    if op not in SHEET_KINDS or words[0] not in ("refused", "record") or words[1] != "2":
        return False
    sheet, at = payload[8:] if op == RECORD else payload, int(words[2])
    return at > 0 and 8 <= sheet[at] < 16


def place_of(case, entries, at):
    """The place after the next of the entries that is the case."""
    try:
        return entries.index(case, at) + 1
    except ValueError:
        sys.exit("not among the cases any more, with its line: %s %s %s" % (KINDS[case[0]], case[1].hex(), case[2:]))


def compare_with(older):
    """Counts what is left of the older cases, what has another line, and what is new."""
    newer = list(zip(*zip(*cases), lines))
    inputs = [case[:2] for case in newer]
    at, moved = 0, {}
    for op, payload, line in older:
        if had_bit_3(op, payload, line):
            at = place_of((op, payload), inputs, at)
            if newer[at - 1][2] == line:
                sys.exit("bit 3: %s %s still has the line %s" % (KINDS[op], payload.hex(), line))
            now = newer[at - 1][2].split()
            now = " ".join(now[:2]) if now[0] in ("refused", "record") else now[0]
            moved[now] = moved.get(now, 0) + 1
        else:
            at = place_of(as_now(op, payload, line), newer, at)
    count = sum(moved.values())
    print("before %d, of these with their lines %d, with bit 3 and another line %d; new %d" % (len(older), len(older) - count, count, len(cases) - len(older)))
    print("in place of 2: " + ", ".join("%s %d" % pair for pair in sorted(moved.items())))


# All of it


def main():
    hand_read()
    hand_write()
    hand_record()
    hand_check()
    hand_clearance()
    hand_lags_read()
    hand_lags_write()
    hand_lags_check()
    hand_lags_run()
    hand_finish()
    hand_limit_read()
    hand_limit_values()
    hand_limit_check()
    hand_limit_run()
    hand_limit_finish()
    hand_walkway_read()
    hand_walkway_write()
    hand_walkway_check()
    hand_walkway_clearance()
    hand_walkway_run()
    hand_walkway_finish()
    hand_turn_read()
    hand_turn_write()
    hand_turn_check()
    hand_turn_clearance()
    hand_turn_run()
    hand_turn_finish()
    by_hand = len(cases)
    made_reads(Numbers(1))
    made_records(Numbers(2))
    made_writes(Numbers(3))
    made_checks(Numbers(4))
    made_clearances(Numbers(5))
    made_lag_reads(Numbers(6))
    made_lag_writes(Numbers(7))
    made_lag_checks(Numbers(8))
    made_lag_runs(Numbers(9))
    made_finishes(Numbers(10))
    made_limits(Numbers(11))
    made_walkway_reads(Numbers(12))
    made_walkway_writes(Numbers(13))
    made_walkway_checks(Numbers(14))
    made_walkway_runs(Numbers(15))
    made_walkway_finishes(Numbers(16))
    made_turn_reads(Numbers(17))
    made_turn_writes(Numbers(18))
    made_turn_checks(Numbers(19))
    made_turn_runs(Numbers(20))
    made_turn_finishes(Numbers(21))
    for number in (1, 2, 3, 4, 5, 6, 7, 11, 12):
        places = {line.split()[2] for line in lines if line.startswith("refused %d " % number)}
        assert len(places) >= 2, number
    for number in (8, 9, 13):
        assert sum(line.startswith("refused %d 0" % number) for line in lines) >= 2
    stdin = b"".join(bytes([op]) + little(len(payload), 2) + payload for op, payload in cases)
    stdout = "".join(line + "\n" for line in lines).encode()
    assert len(stdin) <= MOST_STDIN
    folder = os.path.join(os.path.dirname(os.path.abspath(__file__)), "..", "crates", "test_vectors")
    files = [(os.path.join(folder, "stdin"), stdin), (os.path.join(folder, "stdout"), stdout)]
    if sys.argv[1:2] == ["--before"]:
        stdin_before, stdout_before = [open(path, "rb").read() for path in sys.argv[2:]]
        compare_with(cases_in(stdin_before, stdout_before))
    elif sys.argv[1:] == ["--check"]:
        for path, content in files:
            with open(path, "rb") as file:
                if file.read() != content:
                    sys.exit("%s is not what this script makes" % os.path.relpath(path))
    else:
        for path, content in files:
            with open(path, "wb") as file:
                file.write(content)
    for op in range(1, len(KINDS)):
        answers = {}
        for (case_op, _), line in zip(cases, lines):
            if case_op == op:
                words = line.split()
                word = ANSWERS[int(words[1])] if words[0] == "finish" else words[0]
                answers[word] = answers.get(word, 0) + 1
        print(KINDS[op], sum(answers.values()), " ".join("%s %d" % pair for pair in sorted(answers.items())))
    print("cases %d, by hand %d; stdin %d bytes, stdout %d bytes" % (len(cases), by_hand, len(stdin), len(stdout)))


main()
