#!/usr/bin/env python3
"""A second opinion on round files: the whole check of `checkround`, written from docs/ alone.

    reference.py < FILE

prints the lines that docs/checkround.md asks for, and ends with status 0 where the file was read to its end and 1
where it was refused. `check_file` is the same as a function, from bytes to lines. Each part names the page of docs/
that it was written from.
"""

import sys
from functools import lru_cache

# Refusals (docs/refusals.md). A file cannot meet the numbers that are not here.

STATIONS = {
    1: "file", 2: "file", 3: "file", 4: "file", 5: "file",
    6: "opening", 7: "opening", 8: "opening", 9: "opening",
    10: "group", 11: "group",
    14: "board", 15: "board", 16: "board",
    17: "source",
    18: "proof", 19: "proof", 20: "proof", 21: "proof",
}


class Refused(Exception):
    """The first thing that is unfit: its number, and its place in the file where that is known already."""

    def __init__(self, number, place=None):
        super().__init__(number, place)
        self.number = number
        self.place = place


# The round file (docs/round-file.md).

MARK = b"MIXR"
LONGEST_FILE = 65536
OPENING, DRAWS, POST, COMPARATOR, CLOSE, EXPEL = 1, 2, 3, 4, 5, 6

# The default of each field, from bit 0 on. The one field of draws is its words; none of them is an empty list.
DEFAULTS = {
    OPENING: [0, 1, 0, 1, 1],                          # group, plan, wires, servers, key
    DRAWS: [[]],                                       # words
    POST: [1, 1],                                      # alpha, beta
    COMPARATOR: [1, 1, 1, 1, 1, 0, 1, 1, 0, 0, 0, 0],  # O1, O2, w, s, w1, w2, c1, c2, s1, s2
    CLOSE: [],
    EXPEL: [],
}


class Cursor:
    """Reads a record's bytes from its offset on; running out of them is the refusal of that record."""

    def __init__(self, data, offset):
        self.data = data
        self.offset = offset
        self.at = offset

    def number(self, size):
        end = self.at + size
        if end > len(self.data):
            raise Refused(2, self.offset)
        value = int.from_bytes(self.data[self.at:end], "big")
        self.at = end
        return value

    def words(self):
        count = self.number(4)
        if self.at + 8 * count > len(self.data):
            raise Refused(2, self.offset)
        return [self.number(8) for _ in range(count)]


def read_record(data, offset):
    """The record at an offset: its kind, its values with the defaults filled in, and the offset behind it."""
    if offset + 3 > len(data):
        raise Refused(2, offset)
    cursor = Cursor(data, offset)
    kind, bits = cursor.number(1), cursor.number(2)
    if kind not in DEFAULTS:
        raise Refused(3, offset)
    defaults = DEFAULTS[kind]
    if bits >> len(defaults):
        raise Refused(4, offset)
    values = []
    for bit, default in enumerate(defaults):
        if not bits >> bit & 1:
            values.append(default)
        elif kind == DRAWS:
            values.append(cursor.words())
        else:
            values.append(cursor.number(4))
    return kind, values, cursor.at


def in_place(kind, index):
    """Whether a kind of record may be the file's record of that index: an opening, two draws, then all others."""
    if index == 0:
        return kind == OPENING
    if index <= 2:
        return kind == DRAWS
    return kind not in (OPENING, DRAWS)


def read_file(data):
    """Gives the file's records one by one, as (offset, kind, values), and reads none before it is asked for."""
    if len(data) > LONGEST_FILE or data[:4] != MARK:
        raise Refused(1, 0)
    offset, index = 4, 0
    while offset < len(data):
        kind, values, behind = read_record(data, offset)
        if not in_place(kind, index):
            raise Refused(5, offset)
        yield offset, kind, values
        offset, index = behind, index + 1
    if index < 3:
        raise Refused(5, len(data))


# Groups (docs/groups.md).

class Group:
    """A group in which each element is a power of g, by tables of powers and logarithms made with its product."""

    def __init__(self, order, generator, challenge_width, product):
        self.order = order
        self.generator = generator
        self.challenge_width = challenge_width
        self.powers = [1]
        for _ in range(order - 1):
            self.powers.append(product(self.powers[-1], generator))
        self.logarithms = {element: i for i, element in enumerate(self.powers)}
        assert len(self.logarithms) == order and product(self.powers[-1], generator) == 1

    def is_element(self, code):
        return code in self.logarithms

    def multiply(self, a, b):
        return self.powers[(self.logarithms[a] + self.logarithms[b]) % self.order]

    def divide(self, a, b):
        return self.powers[(self.logarithms[a] - self.logarithms[b]) % self.order]

    def power(self, a, exponent):
        return self.powers[self.logarithms[a] * exponent % self.order]


def polynomial_product(a, b):
    """The product of two polynomials over bits, modulo t^13 + t^4 + t^3 + t + 1."""
    product = 0
    while b:
        if b & 1:
            product ^= a
        b >>= 1
        a <<= 1
        if a >> 13:
            a ^= 8219
    return product


GROUPS = {
    1: Group(11, 2, 3, lambda a, b: a * b % 23),
    2: Group(8191, 2, 12, polynomial_product),
}


# Plans (docs/plans.md).

def chain(wires):
    return [(j, k) for j in range(wires) for k in range(j + 1, wires)]


def butterfly(places):
    if len(places) == 1:
        return []
    pairs = list(zip(places[::2], places[1::2]))
    return pairs + butterfly(places[::2]) + butterfly(places[1::2]) + pairs[1:]


@lru_cache(maxsize=None)
def comparators(plan, wires):
    """The plan's listing, or none where it has no such number of wires."""
    if plan == 1 and 2 <= wires <= 64:
        return chain(wires)
    if plan == 2 and wires in (2, 4, 8, 16, 32, 64):
        return butterfly(list(range(wires)))
    return None


# The two proofs of a comparator (docs/proofs.md), and the draws that they meet (docs/sources.md).

class Source:
    """Two tapes, joined: the XOR of their words, as far as both reach."""

    def __init__(self, first, second):
        self.words = [a ^ b for a, b in zip(first, second)]

    def draw(self, question):
        if question >= len(self.words):
            raise Refused(17)
        return self.words[question]


class Message:
    """What a comparator's record has: two outputs and two proofs."""

    def __init__(self, values):
        self.outputs = (values[0], values[1]), (values[2], values[3])
        self.w, self.s, self.w1, self.w2, self.c1, self.c2, self.s1, self.s2 = values[4:]

    def elements(self):
        return *self.outputs[0], *self.outputs[1], self.w, self.w1, self.w2


def folded_key(group, key, z):
    return group.multiply(group.power(key, z), group.generator)


def folded_quotient(group, old, new, z):
    return group.multiply(group.power(group.divide(new[0], old[0]), z), group.divide(new[1], old[1]))


def accepted(group, key, z, old, new, w, c, s):
    """Whether G^s = w·Y^c: s answers c upon w, for the statement that new is old re-encrypted."""
    left = group.power(folded_key(group, key, z), s)
    return left == group.multiply(w, group.power(folded_quotient(group, old, new, z), c))


def multiply_ciphertexts(group, a, b):
    return group.multiply(a[0], b[0]), group.multiply(a[1], b[1])


def check_comparator(group, key, source, first_question, inputs, message):
    """Judges a comparator's message, in the order of the table in docs/proofs.md."""
    challenges = 1 << group.challenge_width
    if not all(s < group.order for s in (message.s, message.s1, message.s2)):
        raise Refused(11)
    if not all(c < challenges for c in (message.c1, message.c2)):
        raise Refused(11)
    draws = [source.draw(first_question + i) for i in range(4)]
    product_z, product_c = draws[0] % group.order, draws[1] % challenges
    z, c = draws[2] % group.order, draws[3] % challenges
    product_in = multiply_ciphertexts(group, *inputs)
    product_out = multiply_ciphertexts(group, *message.outputs)
    if not accepted(group, key, product_z, product_in, product_out, message.w, product_c, message.s):
        raise Refused(18)
    if message.c1 ^ message.c2 != c:
        raise Refused(19)
    if not accepted(group, key, z, inputs[0], message.outputs[0], message.w1, message.c1, message.s1):
        raise Refused(20)
    if not accepted(group, key, z, inputs[0], message.outputs[1], message.w2, message.c2, message.s2):
        raise Refused(21)


# The board (docs/board.md), with the lines that it prints (docs/checkround.md).

NEEDED = {1: 1, 2: 1, 3: 2, 4: 3, 5: 4, 6: 4, 7: 5, 8: 6}


class Board:
    """One round. Each call gives the line that tells of it, or refuses and alters nothing."""

    def __init__(self, group, plan, wires, servers, key):
        self.group, self.key, self.servers = group, key, servers
        self.listing = comparators(plan, wires)
        self.wires = [(1, 1)] * wires
        self.start = list(self.wires)
        self.stage = "gathering"
        self.posted = self.completed = self.server = self.next = 0

    def read_elements(self, codes):
        if not all(self.group.is_element(code) for code in codes):
            raise Refused(10)

    def expect(self, stage):
        if self.stage != stage:
            raise Refused(14)

    def post(self, alpha, beta):
        self.read_elements((alpha, beta))
        self.expect("gathering")
        if self.posted == len(self.wires):
            raise Refused(15)
        self.wires[self.posted] = alpha, beta
        self.posted += 1
        return f"post {self.posted - 1} {alpha} {beta}"

    def close(self):
        self.expect("gathering")
        if self.posted < len(self.wires):
            raise Refused(16)
        self.start = list(self.wires)
        self.stage, self.server, self.next = "turning", 1, 0
        return "close"

    def step(self, source, message):
        self.read_elements(message.elements())
        self.expect("turning")
        a, b = self.listing[self.next]
        question = 4 * (len(self.listing) * (self.server - 1) + self.next)
        check_comparator(self.group, self.key, source, question, (self.wires[a], self.wires[b]), message)
        self.wires[a], self.wires[b] = message.outputs
        line = f"step {self.server} {self.next} {a} {b}"
        self.next += 1
        if self.next == len(self.listing):
            self.completed += 1
            self.start = list(self.wires)
            self.next_server()
        return line

    def expel(self):
        self.expect("turning")
        line = f"expel {self.server}"
        self.wires = list(self.start)
        self.next_server()
        return line

    def next_server(self):
        self.next = 0
        if self.server == self.servers:
            self.stage = "finished"
        else:
            self.server += 1

    def verdict(self):
        if self.stage != "finished":
            word = "open"
        else:
            word = "stands" if self.completed >= NEEDED[self.servers] else "void"
        return f"{word} {self.completed} {self.servers}"


# The check of a file (docs/checkround.md).

def open_board(group, plan, wires, servers, key):
    """Judges an opening, in the order of the table in docs/checkround.md."""
    if group not in GROUPS or plan not in (1, 2):
        raise Refused(6)
    if comparators(plan, wires) is None:
        raise Refused(7)
    if not 1 <= servers <= 8:
        raise Refused(8)
    if not GROUPS[group].is_element(key):
        raise Refused(10)
    if key == 1:
        raise Refused(9)
    return Board(GROUPS[group], plan, wires, servers, key)


class Round:
    """Takes a file's records one by one: the opening and both draws, and then calls on the board."""

    def __init__(self):
        self.board = self.source = None
        self.tapes = []

    def take(self, kind, values):
        """The line that a record prints, or none where it is draws."""
        if kind == OPENING:
            self.board = open_board(*values)
            return "round " + " ".join(str(value) for value in values[:4])
        if kind == DRAWS:
            self.tapes.append(values[0])
            if len(self.tapes) == 2:
                self.source = Source(*self.tapes)
            return None
        if kind == POST:
            return self.board.post(*values)
        if kind == COMPARATOR:
            return self.board.step(self.source, Message(values))
        return self.board.close() if kind == CLOSE else self.board.expel()


def check_file(data):
    """The lines that the check of a file prints."""
    lines, offset = [], 0
    this_round = Round()
    try:
        for offset, kind, values in read_file(data):
            line = this_round.take(kind, values)
            if line is not None:
                lines.append(line)
        lines.append(this_round.board.verdict())
    except Refused as refused:
        place = offset if refused.place is None else refused.place
        lines.append(f"refused {refused.number} {STATIONS[refused.number]} {place}")
    return lines


def exit_status(lines):
    return 1 if lines[-1].startswith("refused ") else 0


def main():
    lines = check_file(sys.stdin.buffer.read())
    print("\n".join(lines))
    return exit_status(lines)


if __name__ == "__main__":
    sys.exit(main())
