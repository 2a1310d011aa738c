#!/usr/bin/env python3
"""A second answer to every question of `trial`, to hold the proved calls against.

  python3 crates/trial/model.py    writes what `trial` has to print (stdout) of what it is asked (stdin)

It was written from the papers, not from the proved code, and goes another way where there is one: an image is a string of 0 and 1, the
value of a net is found by recursion, a flip-flop that is held or cleared reads another net, an image that version 1 could have held is
one that would be written otherwise, a set of pairs is a set, the allowed vectors are a list, and what refuses a call is a list of numbers
of which the first counts. It stops where a trace or a list is longer, or a verdict takes more rounds, than request §7 says.
"""
import re
from pathlib import Path

HERE = Path(__file__).resolve().parent
CELLS = 256
CELLS_AT = 4 + 3 * 7 + 8
NETS = {1: 1, 2: 3}  # of a flip-flop, in an image of each version
TOO_LONG = {"image": 708, "memory": CELLS_AT + 3 * CELLS, "numbers": 40, "bytes": 50000}


class NoQuestion(Exception):
    """A line that asks nothing; the argument says why."""


SPELLED_WRONG = "a word is missing, spelled wrong, too long or one too many"


# The notation.

def entries(word, most, kind):
    """The entries of a list: hexadecimal bytes behind an x, or decimal numbers."""
    numbers, hexadecimal = [], word.startswith("x")
    if word == "x":
        return []
    for item in re.split("[,/]", word[hexadecimal:]):
        spelled = re.fullmatch(r"((?:[0-9A-Fa-f]{2})+)(?:\*(\d+))?" if hexadecimal else r"(\d+)(?:\*(\d+))?", item)
        if not spelled:
            raise NoQuestion(SPELLED_WRONG)
        found = [int(pair, 16) for pair in re.findall("..", spelled[1])] if hexadecimal else [int(spelled[1])]
        numbers += found[:-1] + found[-1:] * int(spelled[2] or 1)
    if any(number > most for number in numbers) or len(numbers) > TOO_LONG[kind]:
        raise NoQuestion(SPELLED_WRONG)
    return numbers


def short(numbers, spell=str, before=""):
    """A slice with runs of one value in short; of more than 64 runs the first 64, and a sum of all entries."""
    runs = []
    for number in numbers:
        if runs and runs[-1][0] == number:
            runs[-1][1] += 1
        else:
            runs.append([number, 1])
    text = ",".join(spell(value) + (f"*{times}" if times > 1 else "") for value, times in runs[:64]) or "00*0"
    if len(runs) > 64:
        total = 0
        for number in numbers:
            total = (total * 31 + number) % 1000000007
        text += f",.. sum {total}"
    return " | " + before + text


# Designs and images.

class Design:
    """Sizes, cells as kind and two nets, flip-flops as data, enable and clear net, the nets of the outputs."""

    def __init__(self, sizes, cells, flip_flops, shown):
        self.sizes, self.cells, self.shown = sizes, cells, shown
        self.inputs, self.latches, self.outputs, self.count = sizes
        self.flip_flops = flip_flops[:self.latches]

    @staticmethod
    def in_memory(numbers):
        numbers = numbers + [0] * (TOO_LONG["memory"] - len(numbers))
        sizes = [min(number, 255) for number in numbers[:3]] + [numbers[3]]
        cells = [tuple(numbers[k:k + 3]) for k in range(CELLS_AT, len(numbers), 3)]
        cells = [(min(kind, 7), first, second if kind > 1 else 0) for kind, first, second in cells]
        return Design(sizes, cells, [tuple(numbers[k:25:7]) for k in range(4, 11)], numbers[25:CELLS_AT])

    def read(self):
        """The nets that are read: by the cells in use, the flip-flops and the outputs."""
        cells = [net for kind, first, second in self.cells[:self.count] for net in ([first, second] if kind > 1 else [first])]
        return cells + [net for nets in self.flip_flops for net in nets] + self.shown[:self.outputs]

    def faults(self):
        if self.inputs > 6 or self.latches > 7 or self.outputs > 8 or self.count > CELLS:
            return [3]
        first_cell = 2 + self.inputs + self.latches
        if any(net >= first_cell + self.count for net in self.read()):
            return [5]
        return [9] if any(self.kept(cell, set()) and self.reaches(cell, cell, set()) for cell in range(self.count)) else []

    def kept(self, cell, seen):
        """Whether cells lead from a cell to a flip-flop or an output, going with the signal."""
        net = 2 + self.inputs + self.latches + cell
        if net in self.shown[:self.outputs] or any(net in nets for nets in self.flip_flops):
            return True
        seen.add(cell)
        readers = [k for k, (kind, first, second) in enumerate(self.cells[:self.count]) if net == first or (kind > 1 and net == second)]
        return any(k not in seen and self.kept(k, seen) for k in readers)

    def cells_read(self, cell):
        kind, first, second = self.cells[cell]
        cells = [net - 2 - self.inputs - self.latches for net in ([first, second] if kind > 1 else [first])]
        return [other for other in cells if other >= 0]

    def reaches(self, cell, sought, seen):
        for other in self.cells_read(cell):
            if other == sought or (other not in seen and (seen.add(other) or self.reaches(other, sought, seen))):
                return True
        return False

    def plan(self):
        """The kept cells, each behind those that it reads, and of several that could be next the lowest."""
        left, order = [cell for cell in range(self.count) if self.kept(cell, set())], []
        while left:
            order.append(next(cell for cell in left if not set(self.cells_read(cell)) & set(left)))
            left.remove(order[-1])
        return order

    def watch_faults(self, watch):
        """5 of a net that the design does not have; 21 of more than eight nets is looked for behind 10."""
        return [5] if any(net >= 2 + self.inputs + self.latches + self.count for net in watch) else []

    def step(self, state, vector, watch=()):
        """The next state, the output and what the watched nets show: a dead cell 0."""
        known = {0: 0, 1: 1}
        for k in range(self.inputs):
            known[2 + k] = vector >> (self.inputs - 1 - k) & 1
        for k in range(self.latches):
            known[2 + self.inputs + k] = state >> (self.latches - 1 - k) & 1

        def value(net):
            if net not in known:
                kind, first, second = self.cells[net - 2 - self.inputs - self.latches]
                a = value(first)
                b = value(second) if kind > 1 else 0
                known[net] = [a, 1 - a, a & b, a | b, a ^ b, 1 - (a & b), 1 - (a | b), 1 - (a ^ b)][kind]
            return known[net]

        # A flip-flop reads net 0 where it is cleared, its data net where it is enabled, and its own net otherwise.
        taken = [0 if value(clear) else data if value(enable) else 2 + self.inputs + k
                 for k, (data, enable, clear) in enumerate(self.flip_flops)]
        first_cell = 2 + self.inputs + self.latches
        probed = [net if net < first_cell or self.kept(net - first_cell, set()) else 0 for net in watch]
        return tuple(int("0" + "".join(str(value(net)) for net in nets), 2) for nets in (taken, self.shown[:self.outputs], probed))

    def table(self, watch):
        steps = [self.step(s, v, watch) for s in range(2 ** self.latches) for v in range(2 ** self.inputs)]
        return [list(column) for column in zip(*steps)]

    def image(self):
        version = 1 if all(nets[1:] == (1, 0) for nets in self.flip_flops) else 2
        bits = "".join(f"{size:04b}" for size in [version] + self.sizes[:3]) + f"{self.count:09b}"
        bits += "".join(f"{kind:03b}{first:09b}{second:09b}" for kind, first, second in self.cells[:self.count])
        nets = [net for nets in self.flip_flops for net in nets[:NETS[version]]]
        bits += "".join(f"{net:09b}" for net in nets + self.shown[:self.outputs])
        bits += "0" * (-len(bits) % 8)
        return [int(bits[k:k + 8], 2) for k in range(0, len(bits), 8)]


EMPTY = Design.in_memory([])


def header(data):
    """What refuses the header of an image, the nets of a flip-flop, the sizes, and how many bytes the image takes."""
    if len(data) < 4:
        return [1], 0, None, 0
    bits = "".join(f"{byte:08b}" for byte in data[:4])
    version, *sizes = [int(bits[4 * k:4 * k + 4], 2) for k in range(4)] + [int(bits[16:25], 2)]
    if version not in NETS:
        return [2], 0, None, 0
    if sizes[0] > 6 or sizes[1] > 7 or sizes[2] > 8 or sizes[3] > CELLS:
        return [3], 0, None, 0
    size = (25 + 21 * sizes[3] + 9 * (NETS[version] * sizes[1] + sizes[2]) + 7) // 8
    return ([4] if len(data) < size else []), NETS[version], sizes, size


def reading(data):
    """What refuses an image, and the design that it spells."""
    faults, each, sizes, size = header(data)
    if faults:
        return faults, EMPTY
    bits = "".join(f"{byte:08b}" for byte in data[:size])
    ends = [25 + 21 * k for k in range(sizes[3] + 1)]
    cells = [(int(bits[e:e + 3], 2), int(bits[e + 3:e + 12], 2), int(bits[e + 12:e + 21], 2)) for e in ends[:-1]]
    shown_at = each * sizes[1]
    tails = [int(bits[ends[-1] + 9 * k:ends[-1] + 9 * k + 9], 2) for k in range(shown_at + sizes[2])]
    nets = 2 + sizes[0] + sizes[1] + sizes[3]
    if any(net >= nets for net in tails + [net for cell in cells for net in cell[1:]]):
        faults.append(5)
    if any(kind < 2 and second for kind, _, second in cells):
        faults.append(6)
    if "1" in bits[ends[-1] + 9 * len(tails):]:
        faults.append(7)
    if len(data) > size:
        faults.append(8)
    flip_flops = [tuple(tails[k:k + each] + [1, 0][:3 - each]) for k in range(0, shown_at, each)]
    design = Design(sizes, cells, flip_flops, tails[shown_at:])
    if not faults:
        faults = design.faults()
    if not faults and design.image() != data:
        faults = [19]
    return (faults, EMPTY) if faults else ([], design)


# Pairs of states of two machines.

class Pairs:
    """Three tables each, with the sizes and the allowed vectors: which pairs are alike and which can be aligned, and the lists that are picked."""

    def __init__(self, tables, old, new, vectors, allowed):
        self.next0, self.out0, self.seen0, self.next1, self.out1, self.seen1 = tables
        self.old, self.new, self.vectors, self.allowed = old, new, vectors, allowed
        self.all = [(s0, s1) for s0 in range(old) for s1 in range(new)]
        alike, self.round = {pair for pair in self.all if not self.telling(pair)}, 1
        while True:
            fewer = {pair for pair in alike if all(self.after(pair, v) in alike for v in allowed)}
            if fewer == alike:
                break
            alike, self.round = fewer, self.round + 1
        self.alike = alike
        self.to_tell = self.distances({pair: 1 for pair in self.all if self.telling(pair)})
        self.to_align = self.distances({pair: 0 for pair in alike})

    def after(self, pair, v):
        return self.next0[pair[0] * self.vectors + v], self.next1[pair[1] * self.vectors + v]

    def telling(self, pair):
        """The vectors that show different outputs or watched values."""
        at0, at1 = pair[0] * self.vectors, pair[1] * self.vectors
        return [v for v in self.allowed if (self.out0[at0 + v], self.seen0[at0 + v]) != (self.out1[at1 + v], self.seen1[at1 + v])]

    def distances(self, found):
        steps = max(found.values(), default=0)
        while True:
            steps += 1
            more = [pair for pair in self.all if pair not in found
                    and any(found.get(self.after(pair, v), steps) == steps - 1 for v in self.allowed)]
            if not more:
                return found
            found.update((pair, steps) for pair in more)

    def picked(self, pair, distance, prior):
        """Of the shortest lists the one whose steps each keep the vector before, or else take the lowest."""
        steps = []
        while distance[pair] and (distance is self.to_align or distance[pair] > 1):
            fit = [v for v in self.allowed if distance.get(self.after(pair, v), -1) == distance[pair] - 1]
            prior = prior if prior in fit else fit[0]
            steps.append(prior)
            pair = self.after(pair, prior)
        if distance is self.to_tell:
            fit = self.telling(pair)
            steps.append(prior if prior in fit else fit[0])
        assert len(steps) <= (self.old + self.new - 1 if distance is self.to_tell else self.old * self.new - 1)
        return steps

    def verdict(self):
        """What is said, and the list."""
        for s0, s1 in self.all:
            if (s0, s1) not in self.to_align:
                trace = self.picked((s0, s1), self.to_tell, None)
                return f"apart {s0} {s1} {len(trace)}", trace
        olds, news, steps, rounds = set(range(self.old)), set(range(self.new)), [], 0
        while True:
            left = [(s0, s1) for s0 in sorted(olds) for s1 in sorted(news) if (s0, s1) not in self.alike]
            if not left:
                assert rounds <= self.old + self.new - 1 and len(steps) <= (self.old + self.new - 1) * (self.old * self.new - 1)
                return f"same {len(steps)}", steps
            more = self.picked(left[0], self.to_align, steps[-1] if steps else None)
            for v in more:
                olds, news = {self.next0[s * self.vectors + v] for s in olds}, {self.next1[s * self.vectors + v] for s in news}
            steps, rounds = steps + more, rounds + 1


# The calls.

def filled(found, length):
    return found + [0] * (length - len(found))


def tables_faults(lengths, sizes, mapping):
    """11, 12 and 13 are looked for by the caller in that order."""
    s0, s1, v = sizes
    if not (1 <= s0 <= 128 and 1 <= s1 <= 128 and 1 <= v <= 64):
        return [11]
    needed = [s0 * v] * 3 + [s1 * v] * 3 + [s0 * s1, s0 * s1, s0 * s1 if mapping else 0]
    return [12] if any(length < need for length, need in zip(lengths, needed)) else []


def allowed_vectors(parts, vectors):
    """The vectors that a number in four parts allows, or all of them, and whether 20 refuses it."""
    if not parts:
        return list(range(vectors)), False
    number = "".join(f"{part:016b}" for part in parts + [0] * (4 - len(parts)))
    bits = [v for v, bit in enumerate(reversed(number)) if bit == "1"]
    return [v for v in bits if v < vectors], not bits or bits[-1] >= vectors


def on_tables(call, numbers, given, data):
    lengths, sizes, pair = numbers[1:10], numbers[10:13], tuple(numbers[13:15])
    if sum(lengths[:6]) != len(data):
        raise NoQuestion("the tables have other lengths")
    ends = [sum(lengths[:k]) for k in range(7)]
    tables = [data[ends[k]:ends[k + 1]] for k in range(6)]
    said, left = answer_on_tables(call, lengths, sizes, pair, tables, numbers[15:max(given, 15)])
    return said + short([0] * lengths[6]) + short([0] * lengths[7]) + short(filled(left, lengths[8]))


def answer_on_tables(call, lengths, sizes, pair, tables, parts):
    nothing = " alike 0 alignable 0" if call == "judge" else ""
    faults = tables_faults(lengths, sizes, call.startswith("map"))
    if not faults and any(s >= sizes[side] for side in (0, 1) for s in tables[3 * side][:sizes[side] * sizes[2]]):
        faults = [13]
    if not faults and call.endswith("_of") and (pair[0] >= sizes[0] or pair[1] >= sizes[1]):
        faults = [14]
    allowed, wrong = allowed_vectors(parts, sizes[2])
    if not faults and wrong:
        faults = [20]
    if faults:
        return f"refused {faults[0]}{nothing}", []
    pairs = Pairs(tables, *sizes, allowed)
    if call == "map_alike":
        return f"marked {len(pairs.alike)} round {pairs.round}", [int(p in pairs.alike) for p in pairs.all]
    if call == "map_alignable":
        return f"marked {len(pairs.to_align)}", [int(p in pairs.to_align) for p in pairs.all]
    if call == "judge":
        said, steps = pairs.verdict()
    else:
        distance = pairs.to_tell if call == "trace_of" else pairs.to_align
        if pair not in distance:
            return "refused 15", []
        steps = pairs.picked(pair, distance, None)
        said = f"steps {len(steps)}"
    if len(steps) > lengths[8]:
        return f"refused 16{nothing}", []
    counts = f" alike {len(pairs.alike)} alignable {len(pairs.to_align)}" if call == "judge" else ""
    return said + counts, steps


def on_designs(call, old, new, numbers, given):
    """tabulate, tabulate_both and compare."""
    designs = [old] if call == "tabulate" else [old, new]
    at = {"tabulate": 4, "tabulate_both": 7, "compare": 14}[call]
    lengths = numbers[1:{"tabulate": 4, "tabulate_both": 7, "compare": 10}[call]]
    if call == "tabulate":
        watches = [numbers[at:given]]
    else:
        end = at + 1 + numbers[at]
        watches = [numbers[at + 1:end], numbers[end:given]]
    faults = sorted(number for design, watch in zip(designs, watches) for number in design.faults() + design.watch_faults(watch))
    if not faults and len(designs) > 1 and (old.inputs, old.outputs) != (new.inputs, new.outputs):
        faults = [10]
    if not faults and (len(set(map(len, watches))) > 1 or any(len(watch) > 8 for watch in watches)):
        faults = [21]
    tables = [] if faults else [table for design, watch in zip(designs, watches) for table in design.table(watch)]
    if not faults and any(length < len(table) for length, table in zip(lengths, tables)):
        faults = [12]
    states, steps = [2 ** min(design.latches, 9) for design in designs], []
    said = f"states {states[0]} vectors {2 ** min(old.inputs, 9)}"
    if call != "tabulate":
        said = f"states {states[0]} and {states[-1]} vectors {2 ** min(old.inputs, 9)}"
    if faults:
        said = f"refused {faults[0]}" + (" alike 0 alignable 0" if call == "compare" else "")
    elif call == "compare":
        said, steps = answer_on_tables("judge", [len(table) for table in tables] + lengths[6:], states + [2 ** old.inputs], (0, 0), tables, numbers[10:max(given, 10)][:4])
    if said.startswith("refused"):
        tables = [[]] * 6
    slices = [filled(table, length) for table, length in zip(tables, lengths)]
    if call == "compare":
        slices += [[0] * lengths[6], [0] * lengths[7], filled(steps, lengths[8])]
    return said + "".join(short(one) for one in slices)


def on_one(call, design, numbers):
    faults = design.faults()
    if call == "fault_of":
        return f"fault {faults[0] if faults else 0}"
    if call == "levelize":
        plan = [] if faults else design.plan()
        return f"number {faults[0] if faults else 0} kept {len(plan)}" + short(filled(plan, CELLS))
    if call == "clock":
        state, vector = numbers[:2]
        if not faults and (state >= 2 ** design.latches or vector >= 2 ** design.inputs):
            faults = [14]
        return f"refused {faults[0]}" if faults else "next %d output %d" % design.step(state, vector)[:2]
    image = [] if faults else design.image()
    if not faults and len(image) > numbers[1]:
        faults, image = [12], []
    said = f"refused {faults[0]}" if faults else f"bytes {len(image)}"
    return said + short(filled(image, numbers[1]), lambda byte: f"{byte:02x}", "x")


DESIGNS = {"compare": 2, "tabulate_both": 2, "tabulate": 1, "write": 1, "clock": 1, "fault_of": 1, "levelize": 1}
TAKE_NO_NUMBERS = ["fault_of", "levelize", "length_of", "read"]
OTHERS = ["length_of", "read", "map_alike", "map_alignable", "trace_of", "list_of", "judge", "earlier_number"]
ORDER = [*range(1, 10), 19, 10, 21, *range(11, 15), 20, 15, 16]


def design_of(words):
    if not words:
        raise NoQuestion(SPELLED_WRONG)
    word = words.pop(0)
    if not word.startswith("x"):
        return Design.in_memory(entries(word, 65535, "memory"))
    faults, design = reading(entries(word, 255, "image"))
    if faults:
        raise NoQuestion(SPELLED_WRONG)
    return design


def answer(line):
    call, *words = line.split(" ")
    if call not in DESIGNS and call not in OTHERS and not words:
        raise NoQuestion("no such call")
    designs = [design_of(words) for _ in range(DESIGNS.get(call, 0))]
    numbers = entries(words.pop(0), 65535, "numbers") if words and not words[0].startswith("x") else []
    given = len(numbers)
    numbers += [0] * (TOO_LONG["numbers"] - len(numbers))
    data = entries(words.pop(0), 255, "bytes") if words else []
    if words or (call in TAKE_NO_NUMBERS and given) or ((call in DESIGNS or call == "earlier_number") and data):
        raise NoQuestion(SPELLED_WRONG)
    if call not in DESIGNS and call not in OTHERS:
        raise NoQuestion("no such call")
    if call == "length_of":
        faults, *_, size = header(data)
        return f"refused {faults[0]}" if faults else f"bytes {size}"
    if call == "read":
        faults, design = reading(data)
        return (f"refused {min(faults)}" if faults else "accepted") + ", sizes " + " ".join(map(str, design.sizes))
    if call == "earlier_number":
        some = [min(number, 255) for number in numbers[:2] if number]
        return f"number {min(some, key=lambda n: (ORDER.index(n) if n in ORDER else len(ORDER), n), default=0)}"
    if call in ("write", "clock", "fault_of", "levelize"):
        return on_one(call, designs[0], numbers)
    if call in DESIGNS:
        return on_designs(call, designs[0], designs[-1], numbers, given)
    return on_tables(call, numbers, given, data)


def answered(line):
    if not line or line[0] in " #":
        return line
    try:
        return answer(line)
    except NoQuestion as reason:
        return f"NO QUESTION: {reason}"


if __name__ == "__main__":
    lines = (HERE / "stdin").read_text().splitlines()
    (HERE / "stdout").write_text("".join(answered(line) + "\n" for line in lines))
