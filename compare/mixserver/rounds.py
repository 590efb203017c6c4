#!/usr/bin/env python3
"""Rounds whose turns are all made by `mixserver`, from the posts to the verdict.

    rounds.py [--rounds N] [--seed S] [--mixserver PATH] [--checkround PATH]

Every file along the way is judged by `checkround` and by compare/checkround/reference.py, which must agree. Each turn
must bring its permutation about, which is seen by decrypting the wires, and the verdict must be the one that the
number of completed servers asks for. Turns that must be refused are tried too. Prints how many rounds ended how, and
ends with status 1 where something differs.
"""

import argparse
import collections
import os
import random
import subprocess
import sys

HERE = os.path.dirname(os.path.abspath(__file__))
ROOT = os.path.dirname(os.path.dirname(HERE))
sys.path.insert(0, os.path.join(ROOT, "compare", "checkround"))

from reference import CLOSE, DRAWS, EXPEL, GROUPS, LONGEST_FILE, NEEDED, OPENING, POST, check_file, comparators  # noqa: E402
from rounds import Record, encode_file  # noqa: E402

RECORD_BYTES = 51


class Differs(Exception):
    pass


def run(command, data):
    done = subprocess.run(command, input=data, capture_output=True, timeout=60)
    return done.returncode, done.stdout, done.stderr.decode()


def judged(programs, file):
    """The lines of a file, by both checkers."""
    wanted = check_file(file)
    found = run([programs.checkround], file)[1].decode().splitlines()
    if found != wanted:
        raise Differs(f"checkround: {found[-1:]}, reference: {wanted[-1:]}")
    return wanted


def request(permutation, words, file):
    return f"{' '.join(map(str, permutation))} / {' '.join(map(str, words))}\n".encode() + file


def mixed(programs, permutation, words, file):
    """The file that mixserver makes of a file: the old one, and a record for each comparator."""
    status, out, err = run([programs.mixserver], request(permutation, words, file))
    if status != 0:
        raise Differs(f"mixserver: status {status}, {err!r}")
    if not out.startswith(file):
        raise Differs("what mixserver wrote does not begin with the file")
    return out


def must_refuse(programs, permutation, words, file, text):
    status, out, err = run([programs.mixserver], request(permutation, words, file))
    if status != 1 or out or text not in err:
        raise Differs(f"mixserver: status {status}, {len(out)} bytes, {err!r}, where {text!r} was due")


class Maker:
    """One round: its file so far, and the quotes that stand on the wires."""

    def __init__(self, rng, group, plan, wires, servers):
        self.rng, self.group, self.wires, self.servers = rng, GROUPS[group], wires, servers
        self.count = len(comparators(plan, wires))
        self.private = rng.randrange(1, self.group.order)
        self.key = self.group.power(self.group.generator, self.private)
        tapes = [[rng.getrandbits(64) for _ in range(4 * self.count * servers + rng.randrange(3))] for _ in range(2)]
        self.quotes = [rng.choice(self.group.powers) for _ in range(wires)]
        self.opening = Record(OPENING, [group, plan, wires, servers, self.key])
        records = [self.opening]
        records += [Record(DRAWS, [words]) for words in tapes]
        records += [Record(POST, self.encrypt(quote)) for quote in self.quotes]
        self.posted = encode_file(records)
        self.file = self.posted + Record(CLOSE).encode()

    def encrypt(self, quote):
        r = self.rng.randrange(self.group.order)
        return [self.group.multiply(quote, self.group.power(self.key, r)), self.group.power(self.group.generator, r)]

    def decrypt(self, alpha, beta):
        return self.group.divide(alpha, self.group.power(beta, self.private))

    def permutation(self):
        return self.rng.sample(range(self.wires), self.wires)

    def words(self):
        return [self.rng.choice((0, 1, self.rng.getrandbits(64))) for _ in range(6 * self.count)]


def standing(lines):
    return lines[-1].split()[0]


def last_outputs(maker, plan, file):
    """What the records at the end of a file leave on the wires, decrypted."""
    left = [None] * maker.wires
    records = file[len(file) - RECORD_BYTES * maker.count:]
    for k, (a, b) in enumerate(comparators(plan, maker.wires)):
        numbers = [int.from_bytes(records[i:i + 4], "big") for i in range(RECORD_BYTES * k + 3, RECORD_BYTES * k + 19, 4)]
        left[a], left[b] = maker.decrypt(*numbers[:2]), maker.decrypt(*numbers[2:])
    return left


def serve(programs, maker, plan):
    """One server's turn: the records are taken, and the quotes come as the permutation says."""
    permutation = maker.permutation()
    out = mixed(programs, permutation, maker.words(), maker.file)
    if len(out) != len(maker.file) + RECORD_BYTES * maker.count:
        raise Differs("another number of bytes than a record for each comparator")
    moved = [maker.quotes[j] for j in permutation]
    if last_outputs(maker, plan, out) != moved:
        raise Differs("the quotes did not come as the permutation says")
    return out, moved


def expel(programs, maker, plan):
    """A server that is put out after some of its comparators."""
    out = serve(programs, maker, plan)[0]
    steps = maker.rng.randrange(maker.count)
    cut = out[:len(maker.file) + RECORD_BYTES * steps]
    if steps:
        must_refuse(programs, maker.permutation(), maker.words(), cut, f"refused 14 board {len(cut)}")
    return cut + Record(EXPEL).encode()


def refusals(programs, maker, plan):
    """Turns that are refused where one would be served."""
    size = len(maker.file)
    permutation, words = maker.permutation(), maker.words()
    must_refuse(programs, permutation[1:], words, maker.file, f"refused 12 board {size}")
    must_refuse(programs, permutation, words[1:], maker.file, f"refused 12 board {size}")
    must_refuse(programs, [permutation[0]] * maker.wires, words, maker.file, f"refused 13 board {size}")
    must_refuse(programs, permutation, words, maker.posted, f"refused 14 board {len(maker.posted)}")
    must_refuse(programs, permutation, words, maker.file + b"\x07\0\0", f"refused 3 file {size}")


def play(programs, rng, group, plan, wires, servers, expelled):
    """A whole round, in which the servers of these numbers are put out; its verdict."""
    maker = Maker(rng, group, plan, wires, servers)
    lines = judged(programs, maker.file)
    refusals(programs, maker, plan)
    for server in range(1, servers + 1):
        if server in expelled:
            maker.file = expel(programs, maker, plan)
        else:
            maker.file, maker.quotes = serve(programs, maker, plan)
        after = judged(programs, maker.file)
        if after[:len(lines) - 1] != lines[:-1] or after[-1].startswith("refused"):
            raise Differs(f"behind server {server}: {after[-1]}")
        lines = after
    verdict = standing(lines)
    if verdict != ("stands" if servers - len(expelled) >= NEEDED[servers] else "void"):
        raise Differs(f"{servers - len(expelled)} of {servers} completed, and {lines[-1]}")
    must_refuse(programs, maker.permutation(), maker.words(), maker.file, f"refused 14 board {len(maker.file)}")
    return verdict


def short_source(programs, rng):
    """A source that ends within the first turn."""
    maker = Maker(rng, 1, 1, 4, 1)
    words = [[5] * (4 * maker.count - 1), [9] * (4 * maker.count)]
    records = [maker.opening] + [Record(DRAWS, [tape]) for tape in words]
    file = encode_file(records + [Record(POST, [1, 1])] * 4 + [Record(CLOSE)])
    must_refuse(programs, maker.permutation(), maker.words(), file, f"refused 17 source {len(file)}")


def filled(maker, size):
    """A file of so many bytes in which the third server's turn begins; two are put out, so that the sizes can be met."""
    def with_words(count, written):
        tapes = [Record(DRAWS, [[7] * (count // 2)]), Record(DRAWS, [[9] * (count - count // 2)])]
        posts = [Record(POST, [1, 1], written)] + [Record(POST, [1, 1])] * (maker.wires - 1)
        return encode_file([maker.opening, *tapes, *posts, Record(CLOSE), Record(EXPEL), Record(EXPEL)])

    count, left = divmod(size - len(with_words(2, 0)), 8)
    return with_words(count + 2, left // 4)


def long_file(programs, rng):
    """A file with just room enough behind it for the turn's records, and one with too little."""
    maker = Maker(rng, 1, 1, 4, 4)
    room = LONGEST_FILE - RECORD_BYTES * maker.count
    out = mixed(programs, maker.permutation(), maker.words(), filled(maker, room))
    if len(out) != LONGEST_FILE or standing(judged(programs, out)) != "open":
        raise Differs("a file that just fits")
    must_refuse(programs, maker.permutation(), maker.words(), filled(maker, room + 4), f"refused 1 file {room + 4}")


def random_round(programs, rng):
    plan = rng.choice((1, 2))
    wires = rng.choice((2, 3, 4, 5, 6) if plan == 1 else (2, 4, 8))
    servers = rng.randint(1, 5)
    expelled = {server for server in range(1, servers + 1) if rng.random() < 0.3}
    return play(programs, rng, rng.choice((1, 2)), plan, wires, servers, expelled)


def main():
    parser = argparse.ArgumentParser()
    parser.add_argument("--rounds", type=int, default=200)
    parser.add_argument("--seed", type=int, default=1)
    parser.add_argument("--mixserver", default=os.path.join(ROOT, "crates", "mixserver", "out", "mixserver"))
    parser.add_argument("--checkround", default=os.path.join(ROOT, "crates", "checkround", "out", "checkround"))
    programs = parser.parse_args()
    fixed = [(2, 2, 8, 4, set(), "stands"), (1, 1, 8, 3, set(), "stands"), (2, 2, 8, 4, {1, 3}, "void")]
    counts = collections.Counter()
    for number in range(programs.rounds):
        rng = random.Random(f"{programs.seed} {number}")
        try:
            if number < len(fixed):
                group, plan, wires, servers, expelled, wanted = fixed[number]
                verdict = play(programs, rng, group, plan, wires, servers, expelled)
                if verdict != wanted:
                    raise Differs(f"{verdict}, where {wanted} was due")
            else:
                verdict = random_round(programs, rng)
            counts[verdict] += 1
        except Differs as difference:
            print(f"round {number}: {difference}")
            counts["differ"] += 1
    rng = random.Random(programs.seed)
    short_source(programs, rng)
    long_file(programs, rng)
    print(f"{programs.rounds} rounds: " + ", ".join(f"{counts[word]} {word}" for word in sorted(counts)))
    return 1 if counts["differ"] else 0


if __name__ == "__main__":
    sys.exit(main())
