"""Makes rounds whose records are all taken: honest servers by docs/proofs.md, expulsions, and rounds that stop early.

A round is a list of records, which the damage in damage.py then alters, and which `encode_file` writes.
"""

from reference import (CLOSE, COMPARATOR, DEFAULTS, DRAWS, EXPEL, GROUPS, LONGEST_FILE, MARK, OPENING, POST,
                       comparators, folded_key, folded_quotient)

COMPARATOR_BYTES = 51
WORD_BYTES = 8


class Record:
    """A record by its values; `written` has the bits of fields that are written although they have the default."""

    def __init__(self, kind, values=(), written=0):
        self.kind = kind
        self.values = list(values)
        self.written = written

    def encode(self):
        bits, body = 0, []
        for bit, default in enumerate(DEFAULTS[self.kind]):
            value = self.values[bit]
            if value != default or self.written >> bit & 1:
                bits |= 1 << bit
                body.append(encode_words(value) if self.kind == DRAWS else value.to_bytes(4, "big"))
        return bytes([self.kind]) + bits.to_bytes(2, "big") + b"".join(body)

    def copy(self):
        return Record(self.kind, self.values, self.written)


class Raw:
    """Bytes that stand where a record would."""

    kind = None

    def __init__(self, data):
        self.data = data

    def encode(self):
        return self.data

    def copy(self):
        return self


def encode_words(words):
    return len(words).to_bytes(4, "big") + b"".join(word.to_bytes(8, "big") for word in words)


def encode_file(records):
    return MARK + b"".join(record.encode() for record in records)


# One comparator.

def reencrypt(group, key, ciphertext, r):
    return (group.multiply(ciphertext[0], group.power(key, r)),
            group.multiply(ciphertext[1], group.power(group.generator, r)))


def multiply(group, a, b):
    return group.multiply(a[0], b[0]), group.multiply(a[1], b[1])


def commitment_for(group, folded, quotient, c, s):
    """The w upon which s answers c: G^s / Y^c."""
    return group.divide(group.power(folded, s), group.power(quotient, c))


class Draws:
    """The two z and the two challenges that a comparator meets."""

    def __init__(self, group, words):
        mask = (1 << group.challenge_width) - 1
        self.product_z, self.product_c = words[0] % group.order, words[1] & mask
        self.z, self.c = words[2] % group.order, words[3] & mask


def prove(group, key, draws, inputs, swapped, secrets):
    """The values of an honest comparator's record, from six secret words."""
    r1, r2, e, branch_e, s_f = (word % group.order for word in secrets[:5])
    c_f = secrets[5] % (1 << group.challenge_width)
    first, second = (inputs[1], inputs[0]) if swapped else inputs
    outputs = reencrypt(group, key, first, r1), reencrypt(group, key, second, r2)
    w = group.power(folded_key(group, key, draws.product_z), e)
    s = (e + draws.product_c * (r1 + r2)) % group.order
    folded = folded_key(group, key, draws.z)
    c_t = draws.c ^ c_f
    s_t = (branch_e + c_t * (r2 if swapped else r1)) % group.order
    w_t = group.power(folded, branch_e)
    quotient_f = folded_quotient(group, inputs[0], outputs[0 if swapped else 1], draws.z)
    w_f = commitment_for(group, folded, quotient_f, c_f, s_f)
    known, other = (w_t, c_t, s_t), (w_f, c_f, s_f)
    (w1, c1, s1), (w2, c2, s2) = (other, known) if swapped else (known, other)
    return [*outputs[0], *outputs[1], w, s, w1, w2, c1, c2, s1, s2]


def forge(group, key, draws, inputs, outputs, rng):
    """The values of a record with any outputs at all, by one who knew the draws before committing: it is taken."""
    s, s1, s2 = (rng.randrange(group.order) for _ in range(3))
    c1 = rng.randrange(1 << group.challenge_width)
    c2 = draws.c ^ c1
    product = folded_quotient(group, multiply(group, *inputs), multiply(group, *outputs), draws.product_z)
    w = commitment_for(group, folded_key(group, key, draws.product_z), product, draws.product_c, s)
    folded = folded_key(group, key, draws.z)
    w1 = commitment_for(group, folded, folded_quotient(group, inputs[0], outputs[0], draws.z), c1, s1)
    w2 = commitment_for(group, folded, folded_quotient(group, inputs[0], outputs[1], draws.z), c2, s2)
    return [*outputs[0], *outputs[1], w, s, w1, w2, c1, c2, s1, s2]


# A whole round.

class Shape:
    """How large a round is, and how its fields are written."""

    def __init__(self, group, plan, wires, servers, most_steps):
        self.group, self.plan, self.wires, self.servers = group, plan, wires, servers
        self.most_steps = most_steps


WIDTHS = {1: range(2, 65), 2: (2, 4, 8, 16, 32, 64)}


def random_shape(rng):
    """Mostly small rounds; a few as long as a file can be."""
    group, plan = rng.choice((1, 2)), rng.choice((1, 2))
    size = rng.random()
    if size < 0.55:
        widest, servers, most_steps = 4, rng.choice((1, 1, 2, 2, 3)), 30
    elif size < 0.85:
        widest, servers, most_steps = 8, rng.randint(1, 8), 60
    elif size < 0.96:
        widest, servers, most_steps = 64, rng.randint(1, 8), 100
    else:
        widest, servers, most_steps = rng.choice((8, 16, 34, 64)), rng.randint(1, 8), 1000
    wires = rng.choice([n for n in WIDTHS[plan] if n <= widest])
    return Shape(group, plan, wires, servers, most_steps)


def plan_turns(rng, shape):
    """How many comparators each server does, and whether it is then expelled: a list of (steps, expelled).

    The list is shorter than the servers, or its last turn is neither whole nor expelled, where the round stops early.
    """
    count = len(comparators(shape.plan, shape.wires))
    room = LONGEST_FILE - 100 - 11 * shape.wires
    turns, left = [], shape.most_steps
    habit = rng.choice(("honest", "honest", "mixed", "expelled"))
    for server in range(shape.servers):
        words_before = 2 * WORD_BYTES * 4 * count * server
        fitting = max(0, (room - words_before) // (COMPARATOR_BYTES + 2 * WORD_BYTES * 4))
        chance = {"honest": 0.02, "mixed": 0.35, "expelled": 0.8}[habit]
        expelled = rng.random() < chance
        steps = rng.choice((0, rng.randrange(count))) if expelled else count
        if steps > min(left, fitting):
            if expelled or rng.random() < 0.5:
                turns.append((0, True))
                continue
            turns.append((min(left, fitting), False))
            break
        turns.append((steps, expelled))
        left -= steps
        room -= steps * COMPARATOR_BYTES
        if rng.random() < 0.03:
            break
    return turns


def words_needed(shape, turns):
    """How many words the tapes need for the last comparator that is made."""
    count = len(comparators(shape.plan, shape.wires))
    needed = [4 * (count * server + steps) for server, (steps, _) in enumerate(turns) if steps]
    return max(needed, default=0)


def random_words(rng, count):
    style = rng.random()
    if style < 0.1:
        return [0] * count
    if style < 0.2:
        return [rng.randrange(20) for _ in range(count)]
    return [rng.getrandbits(64) for _ in range(count)]


def random_written(rng, habit, kind):
    """Which fields of a record are written although they have the default."""
    every = (1 << len(DEFAULTS[kind])) - 1
    return {"none": 0, "all": every, "some": rng.randint(0, every)}[habit]


class RoundMaker:
    """Writes one round's records by its shape, and keeps the wires as the board would."""

    def __init__(self, rng, shape):
        self.rng, self.shape = rng, shape
        self.group = GROUPS[shape.group]
        self.listing = comparators(shape.plan, shape.wires)
        self.key = self.group.power(self.group.generator, rng.randrange(1, self.group.order))
        self.habit = rng.choice(("none", "all", "some"))
        self.forger = rng.random() < 0.15
        self.records = []

    def add(self, kind, values=()):
        self.records.append(Record(kind, values, random_written(self.rng, self.habit, kind)))

    def element(self):
        return 1 if self.rng.random() < 0.1 else self.rng.choice(self.group.powers)

    def tapes(self, needed):
        """Two tapes that reach as far as is needed; at times one is longer, and at times one falls short."""
        counts = [needed, needed]
        longer = self.rng.random()
        if longer < 0.3:
            counts[self.rng.randrange(2)] += self.rng.randrange(4)
        elif longer < 0.36:
            short = self.rng.randrange(2)
            counts[short] -= min(counts[short], self.rng.choice((1, 2, 3, 4, 5, needed)))
        return [random_words(self.rng, count) for count in counts]

    def comparator(self, words, inputs):
        draws = Draws(self.group, words)
        if self.forger and self.rng.random() < 0.5:
            outputs = (self.element(), self.element()), (self.element(), self.element())
            return forge(self.group, self.key, draws, inputs, outputs, self.rng)
        secrets = [self.rng.choice((0, 1, self.rng.getrandbits(64), self.rng.getrandbits(64))) for _ in range(6)]
        return prove(self.group, self.key, draws, inputs, self.rng.random() < 0.5, secrets)

    def turn(self, server, steps, expelled, wires, joint):
        """One server's records; the wires as it leaves them."""
        start = list(wires)
        for k in range(steps):
            a, b = self.listing[k]
            question = 4 * (len(self.listing) * server + k)
            words = (joint[question:question + 4] + [0] * 4)[:4]
            values = self.comparator(words, (wires[a], wires[b]))
            wires[a], wires[b] = (values[0], values[1]), (values[2], values[3])
            self.add(COMPARATOR, values)
        if expelled:
            self.add(EXPEL)
            return start
        return wires

    def make(self, turns, tapes):
        shape = self.shape
        self.add(OPENING, [shape.group, shape.plan, shape.wires, shape.servers, self.key])
        for words in tapes:
            self.add(DRAWS, [words])
        wires = [(self.element(), self.element()) for _ in range(shape.wires)]
        for alpha, beta in wires:
            self.add(POST, [alpha, beta])
        self.add(CLOSE)
        joint = [a ^ b for a, b in zip(*tapes)]
        for server, (steps, expelled) in enumerate(turns):
            wires = self.turn(server, steps, expelled, wires, joint)
        return self.records


def make_round(rng):
    """A random round's records; where its tapes fall short it is refused by 17, and else all of them are taken."""
    shape = random_shape(rng)
    turns = plan_turns(rng, shape)
    maker = RoundMaker(rng, shape)
    records = maker.make(turns, maker.tapes(words_needed(shape, turns)))
    if rng.random() < 0.02:
        del records[rng.randint(3, len(records)):]
    return records


def longest_round(rng, group, plan, wires, servers, turns):
    """A round as long as a file can be, with every field written and honest servers that complete their turns.

    The first `turns` servers take one; each tape has as many words as there is room for.
    """
    shape = Shape(group, plan, wires, servers, 0)
    maker = RoundMaker(rng, shape)
    maker.habit, maker.forger = "all", False
    count = len(comparators(plan, wires))
    fixed = 4 + 23 + 2 * 7 + 11 * wires + 3 + COMPARATOR_BYTES * count * turns
    words = (LONGEST_FILE - fixed) // WORD_BYTES
    tapes = [[rng.getrandbits(64) for _ in range(length)] for length in (words // 2, words - words // 2)]
    return maker.make([(count, False)] * turns, tapes)
