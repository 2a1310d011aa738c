#!/usr/bin/env python3
"""Writes what `bench/replay` hands to both programs: an image, and behind it a recording, of ten million records where nothing else is said.

  python3 bench/draw_recording.py NAME [RECORDS] >INPUT

Every design has 6 inputs, 7 flip-flops and 8 outputs. Some of its flip-flops shift the parity of the inputs along, and the last of these is
shown beside the inputs and their parity; the others count where the last input is 1, and nobody sees them: so their states all stay possible.
"""
import random
import sys
from array import array

from draw import Drawing, counting

# How many flip-flops shift, and which bit of record 1,000 is turned.
RECORDINGS = {
    "one_state_left": (7, 0),
    "8_states_left": (4, 0),
    "all_128_left": (0, 0),
    "23_early": (7, 1),
    "unexplained_early": (7, 4),
}


def box(shifting):
    d = Drawing(6, 7)
    parity = d.inputs[0]
    for net in d.inputs[1:]:
        parity = d.cell("xor", parity, net)
    row = [parity] + d.latches[:shifting]
    return d.image(row[:-1] + counting(d, d.latches[shifting:], d.inputs[5]), d.inputs + [parity, row[-1]])


def clock(shifting, state, vector):
    """The next state, and the record."""
    unseen = 7 - shifting
    row, count = state >> unseen, state % (1 << unseen)
    parity = vector.bit_count() % 2
    row |= parity << shifting
    count = (count + vector % 2) % (1 << unseen)
    return row >> 1 << unseen | count, vector << 10 | vector << 4 | parity << 3 | row % 2 << 2


def recording(shifting, turned, records):
    clocks = [clock(shifting, state, vector) for state in range(128) for vector in range(64)]
    words, state = array("H"), 0
    for byte in random.Random(10).randbytes(records):
        state, record = clocks[state << 6 | byte >> 2]
        words.append(record)
    words[999] ^= turned
    if sys.byteorder == "little":
        words.byteswap()
    return words.tobytes()


if __name__ == "__main__":
    shifting, turned = RECORDINGS[sys.argv[1]]
    records = int(sys.argv[2]) if len(sys.argv) > 2 else 10_000_000
    sys.stdout.buffer.write(box(shifting) + recording(shifting, turned, records))
