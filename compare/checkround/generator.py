#!/usr/bin/env python3
"""Makes round files from a seed: rounds that are taken to their end, and rounds with damage of every kind.

    generator.py SEED INDEX > FILE

writes one file. `make_file` is the same as a function; a seed and an index always give the same file.
"""

import random
import sys

from damage import BY_NUMBER, BYTE_DAMAGE, RECORD_DAMAGE, fill_to_limit
from rounds import encode_file, make_round


def apply_record_damage(rng, records, damage):
    if records:
        damage(rng, records)


def damaged_file(rng, records):
    """A round with one kind of damage, or with two."""
    times = rng.choice((1, 1, 1, 2))
    for _ in range(times):
        way = rng.random()
        if way < 0.7:
            apply_record_damage(rng, records, BY_NUMBER[rng.choice(sorted(BY_NUMBER))])
        elif way < 0.9:
            apply_record_damage(rng, records, rng.choice(RECORD_DAMAGE))
        else:
            return rng.choice(BYTE_DAMAGE)(rng, encode_file(records))
    return encode_file(records)


def make_file(seed, index):
    """The file of a seed and an index."""
    rng = random.Random(f"{seed} {index}")
    records = make_round(rng)
    way = rng.random()
    if way < 0.25:
        return encode_file(records)
    if way < 0.27:
        fill_to_limit(rng, records)
        return encode_file(records)
    if way < 0.37:
        return rng.choice(BYTE_DAMAGE)(rng, encode_file(records))
    return damaged_file(rng, records)


if __name__ == "__main__":
    sys.stdout.buffer.write(make_file(int(sys.argv[1]), int(sys.argv[2])))
