"""Damage to rounds and to their bytes, each kind aimed at one number of docs/refusals.md or at none in particular.

A function of `BY_NUMBER` and `RECORD_DAMAGE` alters a round's list of records where it stands; one of `BYTE_DAMAGE`
takes a file's bytes and answers others. Where a round lacks what would be damaged, it is left as it is.
"""

from reference import CLOSE, COMPARATOR, DEFAULTS, DRAWS, EXPEL, GROUPS, LONGEST_FILE, OPENING, POST
from rounds import Raw, Record, encode_file

TOP = 2**32 - 1
CODES = (0, 1, 2, 5, 22, 23, 24, 8190, 8191, 8192, TOP)
EXPONENTS = (0, 1, 10, 11, 12, 8190, 8191, 8192, TOP)
CHALLENGES = (0, 1, 7, 8, 9, 4095, 4096, 4097, TOP)
GROUP_NUMBERS = PLAN_NUMBERS = (0, 1, 2, 3, TOP)
WIRE_NUMBERS = (0, 1, 2, 3, 4, 5, 31, 32, 33, 63, 64, 65, 128, TOP)
SERVER_NUMBERS = (0, 1, 2, 7, 8, 9, 255, 256, TOP)

# The places of a comparator's values.
ELEMENT_FIELDS = (0, 1, 2, 3, 4, 6, 7)
W, S, W1, W2, C1, C2, S1, S2 = range(4, 12)


def indices(records, kind):
    return [i for i, record in enumerate(records) if record.kind == kind]


def random_record(rng, records, kind):
    """One of the records of a kind, or none; one of the first as often as one of all."""
    found = indices(records, kind)
    if not found:
        return None
    return records[rng.choice(found[:3] if rng.random() < 0.5 else found)]


def group_of(records):
    number = records[0].values[0] if records and records[0].kind == OPENING else 2
    return GROUPS.get(number, GROUPS[2])


def set_opening(records, field, value):
    for i in indices(records, OPENING):
        records[i].values[field] = value


# The file (1 to 5).

def no_round_file(rng, records):
    """A file that is too long by its words: 65,537 bytes as a rule, where that can be had."""
    tapes = indices(records, DRAWS)
    if tapes:
        gap = LONGEST_FILE + 1 - len(encode_file(records))
        tape = records[rng.choice(tapes)]
        tape.values[0] = tape.values[0] + [0] * (max(0, gap) // 8)
        gap = LONGEST_FILE + 1 - len(encode_file(records))
        records.append(Raw(bytes(gap if gap > 0 else 1)))


def cut_words(rng, records):
    """Draws that count more words than there are: also counts whose eightfold is small below 2^32."""
    tapes = indices(records, DRAWS)
    if tapes:
        i = rng.choice(tapes)
        data = bytearray(records[i].encode())
        if len(data) >= 7:
            count = int.from_bytes(data[3:7], "big")
            rest = len(encode_file(records[i + 1:]))
            count = rng.choice((count + 1 + rest // 8, 2**29, 2**29 + count, 2**30 + count, 2**31 + count, TOP,
                                7 * 2**29 + count, count + 1, count + 2))
            data[3:7] = (count % 2**32).to_bytes(4, "big")
            records[i] = Raw(bytes(data))


def unknown_kind(rng, records):
    i = rng.randrange(len(records))
    data = bytearray(records[i].encode())
    data[0] = rng.choice((0, 7, 8, 132, 255))
    records[i] = Raw(bytes(data))


def unknown_field(rng, records):
    i = rng.randrange(len(records))
    kind = records[i].kind
    if kind is not None:
        bit = rng.choice((len(DEFAULTS[kind]), rng.randrange(len(DEFAULTS[kind]), 16)))
        data = bytearray(records[i].encode())
        data[1:3] = (int.from_bytes(data[1:3], "big") | 1 << bit).to_bytes(2, "big")
        records[i] = Raw(bytes(data))


def misplaced_record(rng, records):
    way = rng.randrange(6)
    if way == 0:
        del records[rng.randrange(min(3, len(records)))]
    elif way == 1:
        records.insert(3, Record(DRAWS, [[]], rng.randrange(2)))
    elif way == 2:
        records.insert(rng.randint(1, len(records)), records[0].copy())
    elif way == 3:
        del records[rng.randrange(3):]
    elif way == 4:
        records.insert(rng.randint(0, min(2, len(records))), small_record(rng))
    else:
        records.insert(rng.randint(3, max(3, len(records))), Record(DRAWS, [[7]]))


def small_record(rng):
    kind = rng.choice((POST, CLOSE, EXPEL, COMPARATOR))
    return Record(kind, DEFAULTS[kind], rng.randrange(1 << len(DEFAULTS[kind])))


# The opening (6 to 10).

def unknown_group_or_plan(rng, records):
    field = rng.randrange(2)
    set_opening(records, field, rng.choice((0, 3, TOP, rng.randrange(2**32))))


def unfit_wires(rng, records):
    set_opening(records, 2, rng.choice(WIRE_NUMBERS))


def unfit_servers(rng, records):
    set_opening(records, 3, rng.choice(SERVER_NUMBERS))


def key_is_one(rng, records):
    set_opening(records, 4, 1)


def any_opening(rng, records):
    """Several fields of the opening at their limits, to see which is refused first."""
    limits = (GROUP_NUMBERS, PLAN_NUMBERS, WIRE_NUMBERS, SERVER_NUMBERS, CODES)
    for field in rng.sample(range(5), rng.randint(1, 3)):
        set_opening(records, field, rng.choice(limits[field]))


# Elements and numbers (10 and 11).

def spoil_element(rng, group, record):
    """Puts a code that no element has into a post or a comparator."""
    if record.kind in (POST, COMPARATOR):
        field = rng.randrange(2) if record.kind == POST else rng.choice(ELEMENT_FIELDS)
        record.values[field] = rng.choice([code for code in CODES if not group.is_element(code)])


def no_element(rng, records):
    kind = rng.choice((POST, POST, COMPARATOR, COMPARATOR, OPENING))
    record = random_record(rng, records, kind)
    if kind == OPENING:
        set_opening(records, 4, rng.choice(CODES))
    elif record is not None:
        spoil_element(rng, group_of(records), record)


def unfit_number(rng, records):
    record = random_record(rng, records, COMPARATOR)
    if record is None:
        return
    group = group_of(records)
    bound = 1 << group.challenge_width
    if rng.random() < 0.5:
        record.values[rng.choice((S, S1, S2))] = rng.choice((group.order - 1, group.order, group.order, TOP))
    else:
        record.values[rng.choice((C1, C2))] = rng.choice((bound - 1, bound, bound, TOP))


def any_limit(rng, records):
    """One value anywhere, at one of the limits."""
    record = random_record(rng, records, rng.choice((OPENING, POST, COMPARATOR, COMPARATOR)))
    if record is not None:
        field = rng.randrange(len(record.values))
        limits = CODES
        if record.kind == COMPARATOR and field not in ELEMENT_FIELDS:
            limits = CHALLENGES if field in (C1, C2) else EXPONENTS
        record.values[field] = rng.choice(limits)


# The board (14 to 17).

def some_call(rng, records):
    """A record for the board: a copy of one that the round has, or a small one; at times with a fault of its own."""
    calls = [record for record in records if record.kind in (POST, CLOSE, COMPARATOR, EXPEL)]
    call = rng.choice(calls).copy() if calls and rng.random() < 0.7 else small_record(rng)
    return with_fault(rng, records, call)


def with_fault(rng, records, call):
    """Gives some calls a code of no element or an unfit number, to see which is refused first."""
    way = rng.random()
    if way < 0.25:
        spoil_element(rng, group_of(records), call)
    elif way < 0.4:
        unfit_number(rng, records[:1] + [call])
    return call


def wrong_stage(rng, records):
    closes = indices(records, CLOSE)
    way = rng.randrange(5)
    if not closes or way == 0:
        records.append(some_call(rng, records))
        return
    before, behind = rng.randint(min(3, closes[0]), closes[0]), rng.randint(closes[0] + 1, len(records))
    steps = indices(records, COMPARATOR)
    if way == 1:
        place, call = behind, Record(CLOSE)
    elif way == 2:
        place, call = behind, Record(POST, [2, 3])
    elif way == 3:
        place, call = before, Record(EXPEL)
    else:
        place = before
        call = records[rng.choice(steps)].copy() if steps else Record(COMPARATOR, DEFAULTS[COMPARATOR])
    records.insert(place, with_fault(rng, records, call))


def board_full(rng, records):
    closes = indices(records, CLOSE)
    if closes:
        records.insert(closes[0], Record(POST, [1, rng.choice((1, 2))], rng.randrange(4)))


def board_short(rng, records):
    posts = indices(records, POST)
    closes = indices(records, CLOSE)
    if posts and rng.random() < 0.5:
        del records[rng.choice(posts)]
    elif posts and closes:
        records.insert(rng.randint(posts[0], posts[-1]), Record(CLOSE))


def beyond_reach(rng, records):
    tape = random_record(rng, records, DRAWS)
    if tape is not None:
        words = list(tape.values[0])
        kept = rng.choice((rng.randint(0, len(words)), max(0, len(words) - rng.randint(1, 5))))
        tape.values[0] = words[:kept]


# The proofs (18 to 21): one number or several are changed so that the equation named is the first to fail, but where
# the drawn numbers are such that it still holds.

def other_element(rng, group, element):
    return group.multiply(element, group.powers[rng.randrange(1, group.order)])


def change_answer(rng, records, w, s):
    record = random_record(rng, records, COMPARATOR)
    if record is None:
        return
    group = group_of(records)
    if rng.random() < 0.5 and group.is_element(record.values[w]):
        record.values[w] = other_element(rng, group, record.values[w])
    else:
        record.values[s] = (record.values[s] + rng.randrange(1, group.order)) % group.order


def product_proof(rng, records):
    change_answer(rng, records, W, S)


def challenge_split(rng, records):
    record = random_record(rng, records, COMPARATOR)
    if record is not None:
        record.values[rng.choice((C1, C2))] ^= 1 << rng.randrange(group_of(records).challenge_width)


def first_branch(rng, records):
    """The first branch by itself, or in one of the ways by which errors of both branches would cancel."""
    record = random_record(rng, records, COMPARATOR)
    way = rng.randrange(4)
    if record is None or way == 0:
        change_answer(rng, records, W1, S1)
        return
    group, values = group_of(records), record.values
    if way == 1:
        change = rng.randrange(1, 1 << group.challenge_width)
        values[C1], values[C2] = values[C1] ^ change, values[C2] ^ change
    elif way == 2:
        move_between(rng, group, values, W1, W2)
    else:
        move_between(rng, group, values, *rng.choice(((0, 2), (1, 3))))


def move_between(rng, group, values, a, b):
    """Multiplies one element and divides another by the same, so that their product stays."""
    if group.is_element(values[a]) and group.is_element(values[b]):
        factor = group.powers[rng.randrange(1, group.order)]
        values[a], values[b] = group.multiply(values[a], factor), group.divide(values[b], factor)


def second_branch(rng, records):
    change_answer(rng, records, W2, S2)


def exchange_values(rng, records):
    """Two values of a comparator change places, as in a record written in another order."""
    record = random_record(rng, records, COMPARATOR)
    if record is not None:
        pairs = ((0, 1), (2, 3), (0, 2), (1, 3), (W, W1), (W1, W2), (C1, C2), (S1, S2), (S, S1))
        for a, b in rng.sample(pairs, rng.choice((1, 1, 2))):
            record.values[a], record.values[b] = record.values[b], record.values[a]


def several_faults(rng, records):
    """Several faults in one comparator, to see which is refused first."""
    record = random_record(rng, records, COMPARATOR)
    if record is not None:
        faults = (unfit_number, product_proof, challenge_split, first_branch, second_branch)
        for fault in rng.sample(faults, rng.randint(2, 3)):
            fault(rng, [records[0], record])
        if rng.random() < 0.3:
            beyond_reach(rng, records)


BY_NUMBER = {
    1: no_round_file, 2: cut_words, 3: unknown_kind, 4: unknown_field, 5: misplaced_record,
    6: unknown_group_or_plan, 7: unfit_wires, 8: unfit_servers, 9: key_is_one, 10: no_element, 11: unfit_number,
    14: wrong_stage, 15: board_full, 16: board_short, 17: beyond_reach,
    18: product_proof, 19: challenge_split, 20: first_branch, 21: second_branch,
}


# Whole records, and values at large.

def repeat_record(rng, records):
    i = rng.randrange(len(records))
    records.insert(rng.choice((i, rng.randrange(len(records)))), records[i].copy())


def drop_record(rng, records):
    del records[rng.randrange(len(records))]


def move_record(rng, records):
    moved = records.pop(rng.randrange(len(records)))
    records.insert(rng.randint(0, len(records)), moved)


def exchange_records(rng, records):
    i = rng.randrange(len(records))
    j = rng.choice((min(i + 1, len(records) - 1), rng.randrange(len(records))))
    records[i], records[j] = records[j], records[i]


def insert_call(rng, records):
    records.insert(rng.randint(min(3, len(records)), len(records)), some_call(rng, records))


def change_word(rng, records):
    tape = random_record(rng, records, DRAWS)
    if tape is not None and tape.values[0]:
        words = list(tape.values[0])
        words[rng.randrange(len(words))] ^= 1 << rng.randrange(64)
        tape.values[0] = words


RECORD_DAMAGE = (any_opening, any_limit, exchange_values, several_faults, repeat_record, drop_record, move_record,
                 exchange_records, insert_call, change_word)


# Bytes.

def flip_bits(rng, data):
    data = bytearray(data)
    for _ in range(rng.choice((1, 1, 1, 2, 3))):
        if data:
            data[rng.randrange(len(data))] ^= 1 << rng.randrange(8)
    return bytes(data)


def cut_file(rng, data):
    return data[:rng.choice((rng.randint(0, len(data)), max(0, len(data) - rng.randint(1, 8)), rng.randint(0, 30)))]


def insert_bytes(rng, data):
    at = rng.choice((rng.randint(0, len(data)), len(data)))
    return data[:at] + rng.randbytes(rng.choice((1, 1, 2, 3, 4, 8))) + data[at:]


def remove_bytes(rng, data):
    at = rng.randint(0, len(data))
    return data[:at] + data[at + rng.choice((1, 1, 2, 3, 4, 8)):]


def wrong_mark(rng, data):
    return rng.choice((b"mixr", b"MIXS", b"NIXR", b"RXIM", b"MI\0R", b"")) + data[4:]


def too_long(rng, data):
    return data + bytes(max(1, LONGEST_FILE + rng.choice((1, 1, 2, 3, 4000)) - len(data)))


BYTE_DAMAGE = (flip_bits, flip_bits, cut_file, insert_bytes, remove_bytes, wrong_mark, too_long)


# The longest files that are taken.

def fill_to_limit(rng, records):
    """Lengthens a round to just 65,536 bytes by words that nobody asks for, and keeps it fit where that can be."""
    while len(records) > 7 and len(records) % 4:
        records.pop()
    tapes = indices(records, DRAWS)
    gap = LONGEST_FILE - len(encode_file(records))
    if gap % 8 == 4:
        write_one_more(records)
        gap = LONGEST_FILE - len(encode_file(records))
    if tapes and gap > 0:
        tape = records[rng.choice(tapes)]
        tape.written = 1
        gap = LONGEST_FILE - len(encode_file(records))
        tape.values[0] = tape.values[0] + [rng.getrandbits(64) for _ in range(gap // 8)]
        rest = LONGEST_FILE - len(encode_file(records))
        if rest:
            records.append(Raw(rng.randbytes(rest)))


def write_one_more(records):
    """Writes one field that was left out, which is four bytes more."""
    for record in records:
        length = len(record.encode())
        for bit in range(len(DEFAULTS.get(record.kind, ()))):
            if record.kind != DRAWS and record.written >> bit & 1 == 0:
                record.written |= 1 << bit
                if len(record.encode()) > length:
                    return
