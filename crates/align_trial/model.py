#!/usr/bin/env python3
"""A second decision on two images, to hold the proved one against.

  python3 crates/align_trial/model.py             writes what `align_trial` has to print (stdout) of what it is asked (stdin)
  python3 crates/align_trial/model.py --lowest    prints what that was while every step took the lowest vector, before request §2

It was written from the papers, not from the proved code, and goes another way where there is one: an image is a string of 0 and 1, a
net is a column with its value in every state under every vector, a loop is a column that is asked for while it is being worked out, and
only the nets of flip-flops and outputs are asked for.
States of both designs stand in one row and are put into classes, finer with every step; pairs are alike that end in one class. Lists to
an alike pair are found backwards from the alike pairs. Where there are few lists, a shortest one is also picked by the words of §2, from
all lists that do.

The inputs whose lists have some 32,768 steps are a counter of 128 states that vector 1 sends from 127 to 1 and not to 0. Old and new hold
its bits in other orders, some of them inverted, so that the lowest pair is another one than the lowest count.
"""
import re
import sys
from itertools import product
from pathlib import Path

HERE = Path(__file__).resolve().parent


# Images.

class Refused(Exception):
    """Something is turned away; the argument is the number."""


def refuse(reason, when):
    if when:
        raise Refused(reason)


def cut(bits, widths):
    """The numbers of these widths at the front of the bits."""
    numbers, at = [], 0
    for width in widths:
        numbers.append(int(bits[at:at + width], 2))
        at += width
    return numbers


HEADER = (4, 4, 4, 4, 9)


class Design:
    """The design that an image spells: its sizes, how many bytes it takes, and for each state and vector the next state and output."""

    def __init__(self, data, whole):
        """Of an old image the rest of the bytes is the new one; a new image has to be the whole."""
        bits = "".join(f"{byte:08b}" for byte in data)
        refuse(1, len(data) < 4)
        version, self.inputs, self.latches, self.outputs, cells = cut(bits, HEADER)
        refuse(2, version not in (1, 2))
        refuse(3, self.inputs > 6 or self.latches > 7 or self.outputs > 8 or cells > 256)
        each = 3 if version == 2 else 1  # nets of a flip-flop: its data, and in version 2 its enable and clear
        shown_at = each * self.latches
        widths = HEADER + (3, 9, 9) * cells + (9,) * (shown_at + self.outputs)
        used = sum(widths)
        self.bytes = (used + 7) // 8
        refuse(4, len(data) < self.bytes)
        numbers = cut(bits, widths)[len(HEADER):]
        self.cells = [numbers[3 * k:3 * k + 3] for k in range(cells)]
        read = numbers[3 * cells:]
        nets = 2 + self.inputs + self.latches + cells
        refuse(5, any(net >= nets for net in read + [net for cell in self.cells for net in cell[1:]]))
        refuse(6, any(kind < 2 and second > 0 for kind, _, second in self.cells))
        refuse(7, "1" in bits[used:8 * self.bytes])
        refuse(8, whole and len(data) > self.bytes)
        columns = self.columns(read)
        flip_flops = [(read[at:at + each] + [1, 0])[:3] for at in range(0, shown_at, each)]
        refuse(19, version == 2 and all(nets[1:] == [1, 0] for nets in flip_flops))
        own = columns[2 + self.inputs:2 + self.inputs + self.latches]
        self.next = self.table([latched(held, *(columns[net] for net in nets)) for held, nets in zip(own, flip_flops)])
        self.out = self.table([columns[net] for net in read[shown_at:]])

    def columns(self, read):
        """For each net that these come from its values in every state under every vector, as the bits of one number."""
        width = self.latches + self.inputs
        ones = 2 ** 2 ** width - 1
        # Latches and inputs are the bits of the place: of state × vectors + vector.
        held = [int("".join(str(place >> bit & 1) for place in reversed(range(2 ** width))), 2) for bit in reversed(range(width))]
        columns = [0, ones] + held[self.latches:] + held[:self.latches]
        first_cell = len(columns)
        columns += [None] * len(self.cells)
        asked = set()

        def column(net):
            if columns[net] is None:
                refuse(9, net in asked)
                asked.add(net)
                kind, first, second = self.cells[net - first_cell]
                columns[net] = gate(kind, column(first), column(second)) & ones
            return columns[net]

        for net in read:
            column(net)
        return columns

    def table(self, columns):
        """The numbers whose bits these columns are, the first most significant: a row a state, an entry a vector."""
        places = 2 ** (self.latches + self.inputs)
        digits = ["0" * places] + [f"{column:0{places}b}"[::-1] for column in columns]
        numbers = [int("".join(bits), 2) for bits in zip(*digits)]
        return [numbers[at:at + 2 ** self.inputs] for at in range(0, places, 2 ** self.inputs)]


def latched(held, data, enable, clear):
    """The column of a flip-flop after the clock: its bits change to the data where enabled, and none is left where cleared."""
    return (held ^ ((held ^ data) & enable)) & ~clear


def gate(kind, a, b):
    return (a, ~a, a & b, a | b, a ^ b, ~(a & b), ~(a | b), ~(a ^ b))[kind]


# Pairs of states.

def kept(choices, before):
    """The vector of the step before if it is among the choices, the lowest otherwise; a first step has None before it."""
    return before if before in choices else min(choices)


def lowest(choices, before):
    """As it was before §2."""
    return min(choices)


class Pairs:
    """Two machines side by side, by their tables, the vectors that are allowed, and how a step is picked."""

    def __init__(self, old_next, old_out, new_next, new_out, vectors, pick=kept):
        self.next, self.out, self.pick = (old_next, new_next), (old_out, new_out), pick
        self.vectors = vectors
        self.all = list(product(range(len(old_next)), range(len(new_next))))
        self.classes = self.refined()
        self.left = self.steps_to_alike()

    def after(self, pair, vector):
        return tuple(table[state][vector] for table, state in zip(self.next, pair))

    def shows(self, pair, vector):
        """Whether the outputs differ."""
        return self.out[0][pair[0]][vector] != self.out[1][pair[1]][vector]

    def refined(self):
        """Row k holds a class for each state of the old design and then of the new: equal if no k steps show a difference."""
        count = len(self.next[0])
        after = self.next[0] + [[count + state for state in row] for row in self.next[1]]
        out = self.out[0] + self.out[1]
        rows = [[0] * len(after)]
        while True:
            looks = [tuple((out[state][v], rows[-1][after[state][v]]) for v in self.vectors) for state in range(len(after))]
            numbers = {look: number for number, look in enumerate(dict.fromkeys(looks))}
            rows.append([numbers[look] for look in looks])
            if len(set(rows[-1])) == len(set(rows[-2])):
                return rows

    def steps_to_difference(self, pair):
        """How many steps the trace of a pair has, or None of an alike one."""
        count = len(self.next[0])
        return next((k for k, row in enumerate(self.classes) if row[pair[0]] != row[count + pair[1]]), None)

    def alike(self, pair):
        return self.steps_to_difference(pair) is None

    def steps_to_alike(self):
        """How many steps the list of each alignable pair has, found backwards from the alike pairs."""
        from_where = [{}, {}]
        for comes, table in zip(from_where, self.next):
            for state, row in enumerate(table):
                for vector, then in enumerate(row):
                    comes.setdefault((then, vector), []).append(state)
        left = {pair: 0 for pair in self.all if self.alike(pair)}
        reached = list(left)
        for pair in reached:
            for vector in self.vectors:
                for earlier in product(*(comes.get((state, vector), []) for comes, state in zip(from_where, pair))):
                    if earlier not in left:
                        left[earlier] = left[pair] + 1
                        reached.append(earlier)
        return left

    def trace_of(self, pair):
        """The trace of a pair that is not alike, or None."""
        start, steps, left = pair, [], self.steps_to_difference(pair)
        if left is None:
            return None
        while left > 0:
            left -= 1
            choices = [v for v in self.vectors
                       if (self.shows(pair, v) if left == 0 else self.steps_to_difference(self.after(pair, v)) == left)]
            steps.append(self.pick(choices, steps[-1] if steps else None))
            pair = self.after(pair, steps[-1])
        self.try_lists(start, steps, None, lambda at, v: self.shows(at, v))
        return steps

    def list_of(self, pair, before=None):
        """The list of an alignable pair, behind a step or none, or None."""
        start, steps = pair, []
        if pair not in self.left:
            return None
        while self.left[pair] > 0:
            choices = [v for v in self.vectors if self.left.get(self.after(pair, v)) == self.left[pair] - 1]
            steps.append(self.pick(choices, steps[-1] if steps else before))
            pair = self.after(pair, steps[-1])
        if steps:
            self.try_lists(start, steps, before, lambda at, v: self.alike(self.after(at, v)))
        return steps

    def try_lists(self, pair, steps, before, ends):
        """If few lists are as long: no shorter one ends well, and by the words of §2 these steps are picked of those that do."""
        if len(self.vectors) ** len(steps) > 4096:
            return
        for length in range(1, len(steps) + 1):
            lists = [tried for tried in product(self.vectors, repeat=length) if ends(self.fed(pair, tried[:-1]), tried[-1])]
            assert bool(lists) == (length == len(steps)), (pair, steps)
        for k, step in enumerate(steps):
            goes_on = [tried[k] for tried in lists]
            assert step == self.pick(goes_on, before), (pair, steps)
            lists, before = [tried for tried in lists if tried[k] == step], step

    def fed(self, pair, steps):
        """The pair reached by these steps."""
        for vector in steps:
            pair = self.after(pair, vector)
        return pair

    def verdict_list(self):
        """The list of the verdict Same, round by round."""
        now, steps = [set(range(len(table))) for table in self.next], []
        while True:
            pair = next((pair for pair in product(*map(sorted, now)) if not self.alike(pair)), None)
            if pair is None:
                return steps
            for vector in self.list_of(pair, steps[-1] if steps else None):
                now = [{table[state][vector] for state in states} for table, states in zip(self.next, now)]
                steps.append(vector)


# Texts.

def verdict_lines(pairs, room):
    """The verdict and its lines, with so many bytes of list."""
    apart = next((pair for pair in pairs.all if pair not in pairs.left), None)
    steps = pairs.verdict_list() if apart is None else pairs.trace_of(apart)
    refuse(16, len(steps) > room)
    if apart is None:
        return [f"SAME {len(steps)}"] + [str(vector) for vector in steps]
    lines, pair = [f"APART {apart[0]} {apart[1]} {len(steps)}"], apart
    for vector in steps:
        lines.append(f"{vector} {pairs.out[0][pair[0]][vector]} {pairs.out[1][pair[1]][vector]}")
        pair = pairs.after(pair, vector)
    return lines


def allowed(number, count):
    """The vectors that a number allows, each a power of two in it; None allows all of them."""
    if number is None:
        return range(count)
    vectors = []
    while number > 0:
        vectors.append(number.bit_length() - 1)
        number -= 2 ** vectors[-1]
    refuse(20, not vectors or vectors[0] >= count)
    return vectors[::-1]


def answer(data, room, pick, number=None):
    """What `align` prints of these bytes with so many bytes of list, or `align_allowed` where a number is given."""
    whose = "OLD"
    try:
        old = Design(data, False)
        whose = "NEW"
        new = Design(data[old.bytes:], True)
        whose = "BOTH"
        refuse(10, (old.inputs, old.outputs) != (new.inputs, new.outputs))
        pairs = Pairs(old.next, old.out, new.next, new.out, allowed(number, 2 ** old.inputs), pick)
        lines = verdict_lines(pairs, room)
    except Refused as refused:
        return f"REFUSED {whose} {refused}\n"
    alike, count = sum(pairs.alike(pair) for pair in pairs.all), len(pairs.all)
    return "\n".join([f"INPUTS {old.inputs} OUTPUTS {old.outputs} LATCHES {old.latches} {new.latches}", f"ALIKE {alike} OF {count}",
                      f"ALIGNABLE {len(pairs.left)} OF {count}"] + lines + [""])


def shown(text):
    """What `align_trial` prints of a text: all, or of a long one the first lines, how many bytes it has and their sum by powers of 31."""
    if len(text) <= 4096:
        return text
    prime = 2 ** 32 - 5
    total = sum(byte * pow(31, place, prime) for place, byte in enumerate(reversed(text.encode()))) % prime
    return text[:text.index("\n", 100)] + f"\nAND SO ON, BYTES {len(text)} SUM {total}\n"


def check_heading(heading, data):
    """Where a heading says how many steps either way of picking makes, it is so, also beyond what is printed."""
    said = re.search(r"by the lowest .*?(\d+) steps, by keeping (\d+)", heading)
    for pick, steps in zip((lowest, kept), said.groups() if said else ()):
        assert f"\nSAME {steps}\n" in answer(data, 10 ** 6, pick), heading


def main():
    pick = lowest if "--lowest" in sys.argv[1:] else kept
    said = ""
    for line in (HERE / "stdin").read_text().split("\n")[1:]:
        heading, spelled = line.split(":")
        data, room = bytes.fromhex(spelled), int(heading[0]) if heading[0] in "012" else 32768
        number = int.from_bytes(data[:8], "big") if heading[0] == "#" else None
        data = data if number is None else data[8:]
        check_heading(heading, data)
        said += f"\n{heading}\n" + shown(answer(data, room, pick, number))
    if pick is kept:
        (HERE / "stdout").write_text(said)
    else:
        print(said, end="")


if __name__ == "__main__":
    main()
