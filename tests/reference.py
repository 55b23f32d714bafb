"""Instances, packings, item records, clearance, the search and the earliest finish, written plainly from document 01 and requests #101 to
#106 of document 02 alone.

It shares nothing with the crates. tests/make_vectors.py takes the expected lines of crates/test_vectors from here.

An instance is a dict:
    container         [width, depth, shifts]
    item_count        a number
    items             ten of [width, depth, shifts]
    may_turn          ten, each whether that item may turn
    precedence_count  a number
    precedences       ninety of [u, v, lag]
    yard_number       a number
    walkway           a number
Entries past the counts are no part of it. A packing is ten of [x, y, t, mark]. Axes are x 0, y 1, t 2.
A refusal is a tuple (number, place).
"""

MAX_ITEMS = 10
MAX_PRECEDENCES = 90
# #104: "Make 4,095 the greatest measure of halls and pieces."
MAX_MEASURE = 4095


class Refused(Exception):
    def __init__(self, number, place):
        self.refusal = (number, place)


# Reading ("Sheet bytes" and "Refusals")


def byte_at(sheet, place):
    # "it ends before a byte that is due": 1, with the sheet's length
    if place >= len(sheet):
        raise Refused(1, len(sheet))
    return sheet[place]


def two_bytes_at(sheet, place):
    # "Two-byte fields have the low byte first."
    low = byte_at(sheet, place)
    high = byte_at(sheet, place + 1)
    return low + 256 * high


def map_at(sheet, place, bits):
    # "a bit stands that has no meaning": 2, with the place of the map byte
    byte = byte_at(sheet, place)
    if byte >= 2 ** bits:
        raise Refused(2, place)
    return [bit for bit in range(bits) if byte // 2 ** bit % 2 == 1]


def measures_at(sheet, place, standing):
    # Bits 0, 1, 2: width, depth, shifts; "left out means 1"; "a written measure of 0 or 1" gets 3; #104: "12 is a written measure above
    # 4,095, at the field's place, after 3"
    measures = [1, 1, 1]
    for bit in (0, 1, 2):
        if bit in standing:
            measure = two_bytes_at(sheet, place)
            if measure == 0 or measure == 1:
                raise Refused(3, place)
            if measure > MAX_MEASURE:
                raise Refused(12, place)
            measures[bit] = measure
            place += 2
    return measures, place


def count_at(sheet, place, limit):
    # "count 0, over 10 pieces, over 90 orders": 4, with the place of the count
    count = byte_at(sheet, place)
    if count == 0 or count > limit:
        raise Refused(4, place)
    return count


def read_or_raise(sheet):
    """The instance, and for each item the part of the sheet that is its record, as (start, end)."""
    value = {
        "container": [1, 1, 1],
        "item_count": 0,
        "items": [[0, 0, 0] for _ in range(MAX_ITEMS)],
        "may_turn": [False] * MAX_ITEMS,
        "precedence_count": 0,
        "precedences": [[0, 0, 0] for _ in range(MAX_PRECEDENCES)],
        "yard_number": 0,
        "walkway": 0,
    }
    records = []
    standing = map_at(sheet, 0, 8)
    value["container"], place = measures_at(sheet, 1, standing)
    if 3 in standing:
        count = count_at(sheet, place, MAX_ITEMS)
        place += 1
        value["item_count"] = count
        for item in range(count):
            start = place
            # #106: "Bit 3 of a piece's map, with no field, allows width and depth to be exchanged"
            bits = map_at(sheet, place, 4)
            value["may_turn"][item] = 3 in bits
            value["items"][item], place = measures_at(sheet, place + 1, bits)
            records.append((start, place))
    if 4 in standing:
        count = count_at(sheet, place, MAX_PRECEDENCES)
        place += 1
        value["precedence_count"] = count
        before = None
        for precedence in range(count):
            u = byte_at(sheet, place)
            v = byte_at(sheet, place + 1)
            if u >= value["item_count"] or v >= value["item_count"] or u == v:
                raise Refused(5, place)
            if before is not None and [u, v] <= before:
                raise Refused(6, place)
            before = [u, v]
            value["precedences"][precedence] = [u, v, 0]
            place += 2
    if 5 in standing:
        yard = two_bytes_at(sheet, place)
        if yard == 0:
            raise Refused(3, place)
        value["yard_number"] = yard
        place += 2
    if 6 in standing:
        # #101: one byte for each order in its sequence; "11 is a lag field in which no lag is above 0, an empty field included, at its
        # first byte's place, after its bytes are read"
        field = place
        for precedence in value["precedences"][: value["precedence_count"]]:
            precedence[2] = byte_at(sheet, place)
            place += 1
        if not any(sheet[field:place]):
            raise Refused(11, field)
    if 7 in standing:
        # #105: "Sheet bit 7 holds its width, one byte, 1 to 255, last on the sheet"; "3 covers a written width of 0"
        walkway = byte_at(sheet, place)
        if walkway == 0:
            raise Refused(3, place)
        value["walkway"] = walkway
        place += 1
    if place < len(sheet):
        raise Refused(7, place)
    return value, records


def read(sheet):
    """An instance, or the refusal."""
    try:
        return read_or_raise(sheet)[0]
    except Refused as refused:
        return refused.refusal


def record(sheet, k):
    """The bytes of item k's record, with (0, 0); or no bytes, with the refusal."""
    try:
        value, records = read_or_raise(sheet)
    except Refused as refused:
        return b"", refused.refusal
    if k >= value["item_count"]:
        return b"", (5, 0)
    start, end = records[k]
    return sheet[start:end], (0, 0)


# Values


def valid(value):
    """None of the conditions of number 9; #104: "9 covers such values too"."""
    n = value["item_count"]
    m = value["precedence_count"]
    if n > MAX_ITEMS or m > MAX_PRECEDENCES:
        return False
    for measures in [value["container"]] + value["items"][:n]:
        if 0 in measures or max(measures) > MAX_MEASURE:
            return False
    precedences = value["precedences"][:m]
    for u, v, _ in precedences:
        if u >= n or v >= n or u == v:
            return False
    for i in range(1, m):
        if not precedences[i - 1][:2] < precedences[i][:2]:
            return False
    return True


def two_bytes(number):
    return [number % 256, number // 256]


def measures_bytes(measures):
    """The map's bits and the standing fields."""
    bits = 0
    fields = []
    for bit in (0, 1, 2):
        if measures[bit] != 1:
            bits += 2 ** bit
            fields += two_bytes(measures[bit])
    return bits, fields


def encode(value):
    """The bytes of a valid instance."""
    n = value["item_count"]
    m = value["precedence_count"]
    bits, fields = measures_bytes(value["container"])
    if n > 0:
        bits += 8
        fields += [n]
        for item in range(n):
            item_bits, item_fields = measures_bytes(value["items"][item])
            fields += [item_bits + (8 if value["may_turn"][item] else 0)] + item_fields
    if m > 0:
        bits += 16
        fields += [m]
        for u, v, _ in value["precedences"][:m]:
            fields += [u, v]
    if value["yard_number"] != 0:
        bits += 32
        fields += two_bytes(value["yard_number"])
    lags = [lag for _, _, lag in value["precedences"][:m]]
    if any(lags):
        bits += 64
        fields += lags
    if value["walkway"] > 0:
        bits += 128
        fields += [value["walkway"]]
    return bytes([bits] + fields)


def write(value, room):
    """The bytes that are written at the start of a room of that length, or the refusal."""
    if not valid(value):
        return (9, 0)
    sheet = encode(value)
    if room < len(sheet):
        return (8, 0)
    return sheet


# "Fit": the check and the clearance


def marks_stand(value, positions):
    """Not #106's 13, "a plan mark above 1, or 1 on a piece that may not turn", among the items; marks past the count are ignored."""
    marks = [mark for _, _, _, mark in positions[: value["item_count"]]]
    return all(mark == 0 or (mark == 1 and may_turn) for mark, may_turn in zip(marks, value["may_turn"]))


def turned(value, marks):
    """The value with width and depth exchanged where a mark is 1."""
    items = [[depth, width, shifts] if mark == 1 else [width, depth, shifts] for (width, depth, shifts), mark in zip(value["items"], marks)]
    return {**value, "items": items}


def as_marked(value, positions):
    return turned(value, [mark for _, _, _, mark in positions])


def end(value, positions, item, axis):
    return positions[item][axis] + value["items"][item][axis]


def passage(value, axis):
    """#105: "Apart on x or y then means that one ends at least the walkway before the other's start"; nothing of the kind on t."""
    return value["walkway"] if axis in (0, 1) else 0


def feasible(value, positions):
    items = range(value["item_count"])
    for axis in (0, 1, 2):
        for u in items:
            if end(value, positions, u, axis) > value["container"][axis]:
                return False
    for u in items:
        for v in items:
            if u != v:
                apart = False
                for axis in (0, 1, 2):
                    if end(value, positions, u, axis) + passage(value, axis) <= positions[v][axis]:
                        apart = True
                    if end(value, positions, v, axis) + passage(value, axis) <= positions[u][axis]:
                        apart = True
                if not apart:
                    return False
    for u, v, lag in value["precedences"][: value["precedence_count"]]:
        # #101: "u's end plus the lag is at most v's start"
        if end(value, positions, u, 2) + lag > positions[v][2]:
            return False
    return True


def check(value, positions):
    """True or False, or the refusal: 9, then 13."""
    if not valid(value):
        return (9, 0)
    if not marks_stand(value, positions):
        return (13, 0)
    return feasible(as_marked(value, positions), positions)


def clearance(value, positions, u, v, axis):
    """A number, or the refusal: 9, then 5, then 8, then 13."""
    if not valid(value):
        return (9, 0)
    if u >= value["item_count"] or v >= value["item_count"]:
        return (5, 0)
    if axis not in (0, 1, 2):
        return (8, 0)
    if not marks_stand(value, positions):
        return (13, 0)
    value = as_marked(value, positions)
    return max(
        positions[v][axis] - end(value, positions, u, axis),
        positions[u][axis] - end(value, positions, v, axis),
    )


# "Knowledge and striking". What is struck is a set for each axis: (u, v) is "u before v", a frozenset of the two is overlap.


def overlap(u, v):
    return frozenset((u, v))


def words(u, v):
    return [overlap(u, v), (u, v), (v, u)]


def before_known(struck, axis, u, v):
    return overlap(u, v) in struck[axis] and (v, u) in struck[axis]


def overlap_known(struck, axis, u, v):
    return (u, v) in struck[axis] and (v, u) in struck[axis]


def rows_of(pieces, length):
    """The rows of so many distinct pieces."""
    if length == 0:
        return [[]]
    return [row + [piece] for row in rows_of(pieces, length - 1) for piece in pieces if piece not in row]


def rule_1(struck, pieces):
    for u, v in rows_of(pieces, 2):
        for axis in (0, 1, 2):
            if all(overlap_known(struck, other, u, v) for other in (0, 1, 2) if other != axis):
                yield axis, overlap(u, v)


def rules_2_and_3(struck, pieces):
    for axis in (0, 1, 2):
        for u, v, w in rows_of(pieces, 3):
            first, second = before_known(struck, axis, u, v), before_known(struck, axis, v, w)
            if first and second:
                yield axis, overlap(u, w)
                yield axis, (w, u)
            if first and (u, w) in struck[axis]:
                yield axis, (v, w)
            if second and (u, w) in struck[axis]:
                yield axis, (u, v)


def rule_4(struck, pieces):
    for axis in (0, 1, 2):
        known = {(u, v) for u, v in rows_of(pieces, 2) if overlap_known(struck, axis, u, v)}
        for a, c in rows_of(pieces, 2):
            if overlap(a, c) in struck[axis]:
                for b, d in rows_of([piece for piece in pieces if piece not in (a, c)], 2):
                    if {(a, b), (b, c), (c, d), (d, a)} <= known:
                        yield axis, (b, d)
                        yield axis, (d, b)


def lag_between(value, axis, u, v):
    """#101: "On t a chain total adds the lag between neighbours that have an order". An order that only follows from others is none."""
    if axis == 2:
        for first, second, lag in value["precedences"][: value["precedence_count"]]:
            if (first, second) == (u, v):
                return lag
    return 0


def chain_total(value, axis, row):
    # #105: "On x and y a chain counts a walkway between neighbours"
    total = sum(value["items"][piece][axis] for piece in row) + (len(row) - 1) * passage(value, axis)
    return total + sum(lag_between(value, axis, u, v) for u, v in zip(row, row[1:]))


def greatest_totals(value, struck, axis, pieces):
    """For each piece the greatest total of the chains ending in it, and of those starting in it: every chain, one after another."""
    ending = [0] * len(pieces)
    starting = [0] * len(pieces)
    after = {u: [v for v in pieces if v != u and before_known(struck, axis, u, v)] for u in pieces}

    def extend(row):
        total = chain_total(value, axis, row)
        starting[row[0]] = max(starting[row[0]], total)
        ending[row[-1]] = max(ending[row[-1]], total)
        for piece in after[row[-1]]:
            if piece not in row:
                extend(row + [piece])

    for piece in pieces:
        extend([piece])
    return ending, starting


def rule_5(value, struck, pieces):
    for axis in (0, 1, 2):
        ending, starting = greatest_totals(value, struck, axis, pieces)
        for u, v in rows_of(pieces, 2):
            # #101: "rule 5's sum adds it between u and v"; #105: "and rule 5's sum one between u and v"
            between = lag_between(value, axis, u, v) + passage(value, axis)
            if ending[u] + between + starting[v] > value["container"][axis]:
                yield axis, (u, v)


def contradictory(value, struck, pieces):
    if any(value["items"][piece][axis] > value["container"][axis] for piece in pieces for axis in (0, 1, 2)):
        return True
    return any(set(words(u, v)) <= struck[axis] for u, v in rows_of(pieces, 2) for axis in (0, 1, 2))


def settle(value, struck):
    """Strikes "until nothing more can be struck", or until the knowledge is contradictory, which it then stays."""
    pieces = range(value["item_count"])
    changed = True
    while changed and not contradictory(value, struck, pieces):
        changed = False
        for strikes in (rule_1(struck, pieces), rules_2_and_3(struck, pieces), rule_4(struck, pieces)):
            for axis, word in list(strikes):
                changed = changed or word not in struck[axis]
                struck[axis].add(word)
        if not changed:
            for axis, word in list(rule_5(value, struck, pieces)):
                changed = changed or word not in struck[axis]
                struck[axis].add(word)


# "The search"

OPEN, NONE, PLACED = "open", "none", "placed"


def pair_number(u, v):
    # #102: "v × (v − 1) / 2 + u for u < v"
    return v * (v - 1) // 2 + u


def pair_of(number):
    # "each of 0 to 44 belongs to exactly one pair"
    (pair,) = [(u, v) for v in range(MAX_ITEMS) for u in range(v) if pair_number(u, v) == number]
    return pair


PAIRS = [pair_of(number) for number in range(45)]

# Document 01: "in the sequence (0,1), (0,2), (1,2), (0,3), up to (8,9)"
assert PAIRS[:4] == [(0, 1), (0, 2), (1, 2), (0, 3)] and PAIRS[-1] == (8, 9)


def opening_knowledge(value):
    struck = [set(), set(), set()]
    for u, v, _ in value["precedences"][: value["precedence_count"]]:
        struck[2] |= {overlap(u, v), (v, u)}
    settle(value, struck)
    return struck


def look(value, struck):
    """"contradictory", "placed", or the branching pair and axis."""
    n = value["item_count"]
    if contradictory(value, struck, range(n)):
        return "contradictory"
    for u, v in PAIRS:
        if v < n and not any(before_known(struck, axis, u, v) or before_known(struck, axis, v, u) for axis in (0, 1, 2)):
            return u, v, [axis for axis in (0, 1, 2) if len(set(words(u, v)) - struck[axis]) > 1][0]
    return "placed"


def with_turn(value, struck, turn):
    """The knowledge after a turn at the branching point: 0 first, 1 second."""
    u, v, axis = look(value, struck)
    struck = [set(one) for one in struck]
    if overlap(u, v) not in struck[axis]:
        struck[axis] |= [{overlap(u, v)}, {(u, v), (v, u)}][turn]
    else:
        struck[axis].add([(v, u), (u, v)][turn])
    settle(value, struck)
    return struck


def starts(value, struck):
    """On each axis a piece starts at the total of the greatest chain ending in it, less its own measure."""
    pieces = range(value["item_count"])
    positions = all_zeros()
    for axis in (0, 1, 2):
        ending, _ = greatest_totals(value, struck, axis, pieces)
        for piece in pieces:
            positions[piece][axis] = ending[piece] - value["items"][piece][axis]
    return positions


def step(value, row, levels):
    """One step on an open note; `levels` has the knowledge of each beginning of the row. Both are changed; the state is returned."""
    here = look(value, levels[-1])
    if here == "placed":
        return PLACED
    if here != "contradictory":
        row.append(0)
        levels.append(with_turn(value, levels[-1], 0))
        return OPEN
    while row and row[-1] == 1:
        row.pop()
        levels.pop()
    if not row:
        return NONE
    row[-1] = 1
    levels[-1] = with_turn(value, levels[-2], 1)
    return OPEN


def all_zeros():
    return [[0, 0, 0, 0] for _ in range(MAX_ITEMS)]


def turnable(value):
    return [item for item in range(value["item_count"]) if value["may_turn"][item]]


def last_choice(value):
    """#106: "Choices are counted upward from 0"; "square pieces count too"."""
    return 2 ** len(turnable(value)) - 1


def marks_of(value, choice):
    """The ten marks: "the lowest-numbered turnable piece being the lowest binary digit, 1 for turned"."""
    marks = [0] * MAX_ITEMS
    for digit, item in enumerate(turnable(value)):
        marks[item] = choice // 2 ** digit % 2
    return marks


def run(value, allowance=1000000):
    """From the opening note: the state, the steps taken, the row of turns with the choice, and the packing where it is placed, else zeros."""
    state, steps, choice, row = OPEN, 0, 0, []
    problem = turned(value, marks_of(value, choice))
    levels = [opening_knowledge(problem)]
    while state == OPEN and steps < allowance:
        state = step(problem, row, levels)
        steps += 1
        if state == NONE and choice < last_choice(value):
            # #106: "the step that would say "none" opens the next choice with an empty row instead, until the last"
            state, choice = OPEN, choice + 1
            problem = turned(value, marks_of(value, choice))
            levels = [opening_knowledge(problem)]
    packing = all_zeros()
    if state == PLACED:
        packing = [start[:3] + [mark] for start, mark in zip(starts(problem, levels[-1]), marks_of(value, choice))]
    return state, steps, (row, choice), packing


def program(sheet, allowance=1000000):
    """What `hallplan` prints for a sheet."""
    value = read(sheet)
    if isinstance(value, tuple):
        return "refused %d %d\n" % value
    state, steps, _, positions = run(value, allowance)
    lines = ["%s %d" % ("spent" if state == OPEN else state, steps)]
    if state == PLACED:
        lines += ["%d %d %d %d %d" % (piece, *positions[piece]) for piece in range(value["item_count"])]
    return "".join(line + "\n" for line in lines)


# #103: the earliest finish

SPENT = "spent"


def with_shifts(value, length):
    """The value with so many shifts, "the other measures unchanged"."""
    width, depth, _ = value["container"]
    return {**value, "container": [width, depth, length]}


def finished(answer, length, steps, positions):
    return {"answer": answer, "length": length, "steps": steps, "packing": positions}


def finish(value, allowance):
    """The answer with its length, steps and packing, all zeros unless it is placed; or the refusal."""
    if not valid(value):
        return (9, 0)
    steps, shown = 0, 0
    # "for lengths 1, 2 and so on up to the sheet's shifts, search with the other measures unchanged, under one total allowance"
    for length in range(1, value["container"][2] + 1):
        state, taken, _, positions = run(with_shifts(value, length), allowance - steps)
        steps += taken
        if state == PLACED:
            return finished(PLACED, length, steps, positions)
        if state == OPEN:
            # "spent, with the greatest length already shown impossible (0 if there is none)"
            return finished(SPENT, shown, steps, all_zeros())
        shown = length
    return finished(NONE, 0, steps, all_zeros())
