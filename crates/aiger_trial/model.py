#!/usr/bin/env python3
"""A second reader of drawings in ASCII AIGER, to hold the proved one against.

  python3 crates/aiger_trial/model.py

writes what `aiger_trial` is asked (stdin), what it has to print (stdout), and beside each drawing examples/NAME.aag its image
examples/NAME.img. Every run writes the same bytes.

It was written from the request and document 01, not from the proved code, and goes another way where there is one: the text is cut
into lines and words, a number is well spelled if Python spells it the same way, a net is the place of its literal in a list, a loop is
a value that is asked for while it is being worked out, and the image is a string of 0 and 1. Each image is then taken apart again and
stepped beside the drawing itself.
"""
import sys
from collections import Counter
from pathlib import Path

HERE = Path(__file__).resolve().parent
EXAMPLES = HERE.parent.parent / "examples"


# Reading.

class Refused(Exception):
    """A drawing is turned away; the argument is the number."""


def number(word):
    """The number that a word spells, or None."""
    return int(word) if word.isdigit() and str(int(word)).encode() == word else None


def numbers(line):
    return [number(word) for word in line.split(b" ")]


def refuse(reason, when):
    if when:
        raise Refused(reason)


class Drawing:
    """A drawing that is read: own literals, what is read, and ANDs as own literal, first and second."""

    def __init__(self, text):
        # What stands behind the last line feed is no line.
        lines = text.split(b"\n")[:-1]
        self.read_header(lines[0] if lines else b"")
        self.read_lines(lines[1:])
        refuse(18, len(set(self.own)) < len(self.own))
        refuse(18, any(literal - literal % 2 not in [0] + self.own for literal in self.read))
        # The variables that are read negated, by their odd literals.
        self.negated = sorted({literal for literal in self.read if literal % 2 and literal > 1})
        refuse(3, len(self.ands) + len(self.negated) > 256)
        # Any one clock asks for the value of every AND from which ANDs lead to a flip-flop or an output, and of no other.
        self.step([0] * len(self.latches), [0] * len(self.inputs))

    def read_header(self, line):
        refuse(17, line[:4] != b"aag ")
        self.sizes = numbers(line[4:])
        refuse(17, len(self.sizes) != 5 or None in self.sizes)
        refuse(3, any(size > limit for size, limit in zip(self.sizes, (511, 6, 7, 8, 256))))

    def read_lines(self, lines):
        most, inputs, latches, outputs, ands = self.sizes
        kinds = ["input"] * inputs + ["latch"] * latches + ["output"] * outputs + ["and"] * ands
        refuse(17, len(lines) < len(kinds))
        rows = {"input": [], "latch": [], "output": [], "and": []}
        for kind, line in zip(kinds, lines):
            row = numbers(line)
            refuse(17, None in row or max(row) > 2 * most + 1)
            refuse(17, len(row) not in {"input": (1,), "latch": (2, 3), "output": (1,), "and": (3,)}[kind])
            refuse(17, kind != "output" and (row[0] == 0 or row[0] % 2 == 1))
            refuse(17, kind == "latch" and len(row) == 3 and row[2] not in (0, 1, row[0]))
            rows[kind].append(row)
        self.inputs = [row[0] for row in rows["input"]]
        self.latches = [(row[0], row[1]) for row in rows["latch"]]
        self.outputs = [row[0] for row in rows["output"]]
        self.ands = rows["and"]
        self.own = self.inputs + [own for own, _ in self.latches] + [row[0] for row in self.ands]
        self.read = [data for _, data in self.latches] + self.outputs + [read for row in self.ands for read in row[1:]]

    def step(self, state, vector):
        """One clock of the drawing itself, by its literals: the outputs and the next state, as lists of bits."""
        known = dict(zip([0] + self.own, [0] + vector + state))
        gates = {own: (first, second) for own, first, second in self.ands}

        def value(literal):
            if literal % 2:
                return 1 - value(literal - 1)
            if literal not in known:
                known[literal] = None  # being worked out
                first, second = gates[literal]
                known[literal] = value(first) & value(second)
            refuse(9, known[literal] is None)
            return known[literal]

        return [value(literal) for literal in self.outputs], [value(data) for _, data in self.latches]


# Images, by document 01.

def image(drawing):
    """The image of a drawing."""
    literals = [0, 1] + drawing.own + drawing.negated
    net = {literal: f"{place:09b}" for place, literal in enumerate(literals)}
    _, inputs, latches, outputs, ands = drawing.sizes
    bits = f"0001{inputs:04b}{latches:04b}{outputs:04b}{ands + len(drawing.negated):09b}"
    bits += "".join("010" + net[first] + net[second] for _, first, second in drawing.ands)
    bits += "".join("001" + net[literal - 1] + "000000000" for literal in drawing.negated)
    bits += "".join(net[data] for _, data in drawing.latches)
    bits += "".join(net[literal] for literal in drawing.outputs)
    bits += "0" * (-len(bits) % 8)
    return bytes(int(bits[at:at + 8], 2) for at in range(0, len(bits), 8))


def image_step(data, state, vector):
    """One clock of the design in an image: the outputs and the next state."""
    bits = "".join(f"{byte:08b}" for byte in data)
    at = 0

    def field(width):
        nonlocal at
        at += width
        return int(bits[at - width:at], 2)

    version, inputs, latches, outputs, count = [field(width) for width in (4, 4, 4, 4, 9)]
    cells = [(field(3), field(9), field(9)) for _ in range(count)]
    data_nets = [field(9) for _ in range(latches)]
    shown_nets = [field(9) for _ in range(outputs)]
    assert (version, inputs, latches) == (1, len(vector), len(state)) and len(bits) - at < 8 and "1" not in bits[at:]
    values = [0, 1] + vector + state + [None] * count

    def value(net):
        if values[net] is None:
            kind, first, second = cells[net - len(values) + count]
            values[net] = {1: lambda: 1 - value(first), 2: lambda: value(first) & value(second)}[kind]()
        return values[net]

    return [value(net) for net in shown_nets], [value(net) for net in data_nets]


def answer(text, draw):
    """What is read of a text: an image, or a refusal."""
    try:
        drawing = Drawing(text)
    except Refused as refused:
        return f"REFUSED {refused}"
    data = image(drawing)
    latches, width = len(drawing.latches), len(drawing.latches) + len(drawing.inputs)
    starts = range(1 << width) if width < 7 else [draw.below(1 << width) for _ in range(64)]
    for start in starts:
        bits = [start >> place & 1 for place in range(width)]
        assert drawing.step(bits[:latches], bits[latches:]) == image_step(data, bits[:latches], bits[latches:]), text
    return data.hex(" ").upper()


# The most bytes of a text that `convert` reads whole, and how many it reads of a longer one; what it says where these have no line feed.
MOST = 2 ** 20
ROOM = MOST + 1
OPEN = "convert: no line feed in the first 1,048,577 bytes, and no more are read"


def answers(text, said):
    """The program's two lines on a text of which this is read: with the design beside a refusal, and what `convert` writes, and where."""
    read = said + " BESIDE 10 00 00 00" if said.startswith("REFUSED") else said
    return f"{read}\n" + (f"2 {OPEN}" if len(text) > MOST and b"\n" not in text else f"1 {said}")


# Questions.

class Draw:
    """Drawn numbers, the same on every machine."""

    def __init__(self, seed):
        self.seed = seed

    def below(self, n):
        self.seed = (self.seed * 6364136223846793005 + 1442695040888963407) % 2 ** 64
        return (self.seed >> 33) % n

    def one_of(self, things):
        return things[self.below(len(things))]

    def shuffled(self, things):
        left = list(things)
        return [left.pop(self.below(len(left))) for _ in things]


# Written by hand: what is expected (a number, an image without its spaces, or ok for any image), a name, a colon, and the text.
BY_HAND = r"""
111100008060 P of the bench sheet:aag 2 1 1 1 0\n2\n4 2\n4\n
11110110100080C0004028 Q of the bench sheet:aag 2 1 1 1 0\n2\n4 3\n5\n

17 no text:
17 one line feed:\n
17 the word alone:aag
17 the word and a line feed:aag\n
17 the word, a space, a line feed:aag \n
ok nothing drawn:aag 0 0 0 0 0\n
17 header without a line feed:aag 0 0 0 0 0
17 header without a line feed, M 512:aag 512 0 0 0 0
17 header ends with CR:aag 0 0 0 0 0\r
17 header ends with CR LF:aag 0 0 0 0 0\r\n
17 header ends with byte 0:aag 0 0 0 0 0\x00
17 header ends with a space:aag 0 0 0 0 0 \n
17 header ends with a tab:aag 0 0 0 0 0\t\n
17 header begins with a space:\x20aag 0 0 0 0 0\n
17 header begins with a line feed:\naag 0 0 0 0 0\n
17 header begins with a mark of byte order:\xEF\xBB\xBFaag 0 0 0 0 0\n
17 two spaces before M:aag  0 0 0 0 0\n
17 two spaces before A:aag 0 0 0 0  0\n
17 tab before M:aag\t0 0 0 0 0\n
17 tab before A:aag 0 0 0 0\t0\n
17 line feed in the header:aag 0 0\n0 0 0\n
17 binary AIGER:aig 0 0 0 0 0\n
17 word in capitals:AAG 0 0 0 0 0\n
17 word with one capital:Aag 0 0 0 0 0\n
17 word with a letter more:aagg 0 0 0 0 0\n
17 word with a letter less:aa 0 0 0 0 0\n
17 no space behind the word:aag0 0 0 0 0\n
17 header of no number:aag\x20
17 header of one number:aag 0\n
17 header of four numbers:aag 0 0 0 0\n
17 header of six numbers:aag 0 0 0 0 0 0\n
17 header of nine numbers:aag 0 0 0 0 0 0 0 0 0\n
17 M with two zeros:aag 00 0 0 0 0\n
17 M with a leading zero:aag 01 0 0 0 0\n
17 A with two zeros:aag 0 0 0 0 00\n
17 A with a leading zero:aag 1 0 0 0 01\n2 0 0\n
17 M with a plus:aag +1 0 0 0 0\n
17 M with a minus:aag -1 0 0 0 0\n
17 M is minus zero:aag -0 0 0 0 0\n
17 A with a plus:aag 1 0 0 0 +0\n
17 M with a point:aag 1. 0 0 0 0\n
17 M with a comma:aag 1,0 0 0 0 0\n
17 M with an underline:aag 1_0 0 0 0 0\n
17 M in hexadecimal:aag 0x1 0 0 0 0\n
17 M is a letter:aag x 0 0 0 0\n
17 M is the byte below the digits:aag / 0 0 0 0\n
17 M is the byte above the digits:aag : 0 0 0 0\n
17 M is a superscript two:aag \xB2 0 0 0 0\n
17 M is byte 0:aag \x00 0 0 0 0\n
17 M is byte 255:aag \xFF 0 0 0 0\n
17 byte 0 within A:aag 0 0 0 0 0\x000\n
17 byte 255 behind A:aag 0 0 0 0 0\xFF\n
ok header spelled by escapes:\x61\x61\x67\x20\x30 0 0 0 0\x0A

ok M 511:aag 511 0 0 0 0\n
3 M 512:aag 512 0 0 0 0\n
3 M 1023:aag 1023 0 0 0 0\n
3 M 9999:aag 9999 0 0 0 0\n
ok I 6:aag 6 6 0 0 0\n2\n4\n6\n8\n10\n12\n
3 I 7:aag 7 7 0 0 0\n2\n4\n6\n8\n10\n12\n14\n
ok L 7:aag 7 0 7 0 0\n2 2\n4 4\n6 6\n8 8\n10 10\n12 12\n14 14\n
3 L 8:aag 8 0 8 0 0\n2 2\n4 4\n6 6\n8 8\n10 10\n12 12\n14 14\n16 16\n
ok O 8:aag 0 0 0 8 0\n0\n1\n0\n0\n1\n1\n1\n0\n
3 O 9:aag 0 0 0 9 0\n0\n1\n0\n0\n1\n1\n1\n0\n0\n
3 A 257:aag 511 0 0 0 257\n
3 every size over its limit:aag 512 7 8 9 257\n

17 six numbers, M 512:aag 512 0 0 0 0 0\n
17 A misspelled, M 512:aag 512 0 0 0 00\n
17 M misspelled, A 257:aag 01 0 0 0 257\n
3 M 512, input line misspelled:aag 512 1 0 0 0\nx\n
3 I 7, input lines missing:aag 0 7 0 0 0\n
3 O 9, two drivers:aag 1 2 0 9 0\n2\n2\n0\n0\n0\n0\n0\n0\n0\n0\n0\n
3 L 8, no driver:aag 9 0 8 0 0\n2 18\n4 4\n6 6\n8 8\n10 10\n12 12\n14 14\n16 16\n
3 M 512, AND on itself:aag 512 0 0 0 1\n2 2 2\n
17 line missing, two drivers:aag 2 2 0 1 0\n2\n2\n
17 literal above 2M + 1, two drivers before it:aag 2 2 0 1 0\n2\n2\n6\n
17 literal above 2M + 1, no driver before it:aag 2 0 1 1 0\n2 4\n6\n
17 own literal odd, no driver before it:aag 2 0 0 1 1\n4\n3 0 0\n
17 misspelled AND, AND on itself before it:aag 2 0 0 0 2\n2 2 2\n4 0 00\n
17 initial value 5, two drivers:aag 3 2 1 0 0\n2\n2\n4 0 5\n
18 no driver, AND on itself:aag 2 0 0 1 1\n4\n2 2 2\n
18 two drivers, AND on itself:aag 2 2 0 0 1\n4\n4\n2 2 2\n
18 two drivers, both on themselves:aag 1 0 0 0 2\n2 2 2\n2 3 3\n
18 no driver and two drivers:aag 2 2 0 1 0\n2\n2\n4\n

17 M 0, own literal 2:aag 0 1 0 0 0\n2\n
17 M 0, input line missing:aag 0 1 0 0 0\n
18 M below I + L + A, two inputs:aag 1 2 0 0 0\n2\n2\n
18 M below I + L + A, input and flip-flop:aag 1 1 1 0 0\n2\n2 0\n
18 M below I + L + A, flip-flop and AND:aag 1 0 1 0 1\n2 0\n2 0 0\n
17 M below I + L + A, literal above 2M + 1:aag 1 2 0 0 0\n2\n4\n
3 M below I + L + A, A 257:aag 0 0 0 0 257\n
ok M above I + L + A:aag 9 1 1 1 1\n2\n4 6\n4\n6 4 2\n
ok M above I + L + A, variables with gaps:aag 9 1 1 1 1\n18\n4 12\n13\n12 19 5\n
ok variables of which none is used:aag 511 0 0 1 0\n1\n

11010090100006 literal 2M + 1:aag 1 1 0 1 0\n2\n3\n
17 literal 2M + 2:aag 1 1 0 1 0\n2\n4\n
17 literal 2M + 3:aag 1 1 0 1 0\n2\n5\n
ok M 0, literals 0 and 1:aag 0 0 0 2 0\n0\n1\n
17 M 0, literal 2:aag 0 0 0 1 0\n2\n
ok literal 1023:aag 511 1 0 1 0\n1022\n1023\n
17 literal 1024:aag 511 1 0 1 0\n1022\n1024\n
17 literal 1025:aag 511 1 0 1 0\n1022\n1025\n
17 literal 1026:aag 511 1 0 1 0\n2\n1026\n
ok own literal 2M:aag 5 1 0 1 0\n10\n10\n
17 own literal 2M + 2:aag 5 1 0 0 0\n12\n
17 own literal 2M + 2 of a flip-flop:aag 5 0 1 0 0\n12 0\n
17 own literal 2M + 2 of an AND:aag 5 0 0 0 1\n12 0 0\n
17 own literal 2M + 1:aag 5 1 0 0 0\n11\n
17 own literal 0 of an input:aag 1 1 0 0 0\n0\n
17 own literal 0 of a flip-flop:aag 1 0 1 0 0\n0 0\n
17 own literal 0 of an AND:aag 1 0 0 0 1\n0 0 0\n
17 own literal 1 of an input:aag 1 1 0 0 0\n1\n
17 own literal 1 of a flip-flop:aag 1 0 1 0 0\n1 0\n
17 own literal 1 of an AND:aag 1 0 0 0 1\n1 0 0\n
17 own literal 3 of an input:aag 1 1 0 0 0\n3\n
17 own literal 3 of a flip-flop:aag 1 0 1 0 0\n3 2\n
17 own literal 3 of an AND:aag 1 0 0 0 1\n3 0 0\n

ok initial value 0:aag 2 1 1 1 0\n2\n4 2 0\n4\n
ok initial value 1:aag 2 1 1 1 0\n2\n4 2 1\n4\n
ok initial value is its own literal:aag 2 1 1 1 0\n2\n4 2 4\n4\n
17 initial value is its own literal negated:aag 2 1 1 1 0\n2\n4 2 5\n4\n
17 initial value is an input's literal:aag 2 1 1 1 0\n2\n4 2 2\n4\n
17 initial value is an input's literal negated:aag 2 1 1 1 0\n2\n4 2 3\n4\n
17 initial value is another flip-flop's literal:aag 2 0 2 0 0\n2 2 4\n4 4\n
17 initial value is a literal that nothing drives:aag 3 1 1 1 0\n2\n4 2 6\n4\n
17 initial value with two zeros:aag 2 1 1 1 0\n2\n4 2 00\n4\n
17 initial value 1 with a leading zero:aag 2 1 1 1 0\n2\n4 2 01\n4\n
17 initial value above 2M + 1:aag 2 1 1 1 0\n2\n4 2 6\n4\n
17 two initial values:aag 2 1 1 1 0\n2\n4 2 0 0\n4\n
ok three flip-flops with 0, 1 and own:aag 3 0 3 3 0\n2 4 0\n4 6 1\n6 2 6\n2\n4\n6\n

ok outputs 0 and 1:aag 0 0 0 2 0\n0\n1\n
ok flip-flops read 0 and 1:aag 2 0 2 0 0\n2 0\n4 1\n
ok ANDs read 0 and 1 in all four ways:aag 4 0 0 4 4\n2\n4\n6\n8\n2 0 0\n4 0 1\n6 1 0\n8 1 1\n
ok 1 is read everywhere, no NOT cell:aag 2 0 1 1 1\n2 1\n1\n4 1 1\n
ok flip-flop reads itself:aag 1 0 1 1 0\n2 2\n2\n
ok flip-flop reads itself negated:aag 1 0 1 1 0\n2 3\n2\n
ok flip-flops read each other negated:aag 2 0 2 2 0\n2 5\n4 3\n3\n5\n
ok one variable read negated in four places, one NOT cell:aag 3 1 1 2 1\n2\n4 3\n3\n3\n6 3 3\n
ok NOT cells rise by variable:aag 5 3 0 3 2\n10\n2\n6\n7\n11\n3\n4 11 7\n8 5 3\n
ok NOT cell for a flip-flop only:aag 2 1 1 1 0\n2\n4 3\n4\n
ok NOT cell for an output only:aag 2 1 1 1 0\n2\n4 2\n5\n
ok NOT cell for a first net only:aag 2 1 0 1 1\n2\n4\n4 3 2\n
ok NOT cell for a second net only:aag 2 1 0 1 1\n2\n4\n4 2 3\n
120100A0180808 nets stay in their order:aag 3 2 0 1 1\n2\n4\n6\n6 4 2\n
ok nets in the other order:aag 3 2 0 1 1\n2\n4\n6\n6 2 4\n
ok input shown twice and negated twice:aag 1 1 0 4 0\n2\n2\n3\n3\n2\n
ok inputs in falling order:aag 3 3 0 3 0\n6\n4\n2\n2\n4\n6\n
ok flip-flops in falling order:aag 3 0 3 3 0\n6 4\n4 2\n2 6\n2\n4\n6\n

ok forward reference of an AND:aag 3 1 0 1 2\n2\n4\n4 6 2\n6 2 2\n
ok forward reference of a flip-flop:aag 2 0 1 1 1\n2 4\n2\n4 2 1\n
ok forward reference of an output:aag 2 1 0 1 1\n2\n5\n4 2 2\n
ok own literals of ANDs fall:aag 5 1 0 1 3\n2\n10\n10 8 2\n8 6 2\n6 3 2\n
ok own literals of ANDs in no order:aag 5 1 0 1 3\n2\n7\n6 11 5\n10 2 3\n4 10 11\n
ok AND reads one literal twice:aag 2 1 0 1 1\n2\n4\n4 2 2\n
ok AND reads a literal and its negation:aag 2 1 0 1 1\n2\n4\n4 3 2\n
ok AND that nothing reads:aag 2 1 0 1 1\n2\n2\n4 2 3\n
ok ANDs that only each other read:aag 3 1 0 0 2\n2\n4 2 2\n6 4 4\n
ok two ways to one AND:aag 5 1 0 1 4\n2\n10\n4 2 2\n6 4 2\n8 5 2\n10 6 8\n
ok a flip-flop breaks the loop:aag 2 0 1 1 1\n2 4\n4\n4 2 2\n
ok a flip-flop breaks the loop, negated:aag 2 0 1 1 1\n2 5\n5\n4 3 3\n

18 no driver, read by a flip-flop:aag 2 0 1 0 0\n2 4\n
18 no driver, read by a flip-flop negated:aag 2 0 1 0 0\n2 5\n
18 no driver, shown:aag 2 1 0 1 0\n2\n4\n
18 no driver, shown negated:aag 2 1 0 1 0\n2\n5\n
18 no driver, first net of an AND:aag 3 1 0 1 1\n2\n4\n4 6 2\n
18 no driver, second net of an AND:aag 3 1 0 1 1\n2\n4\n4 2 6\n
18 no driver, first net negated:aag 3 1 0 1 1\n2\n4\n4 7 2\n
18 no driver, second net negated:aag 3 1 0 1 1\n2\n4\n4 2 7\n
18 no driver, read by an AND that nothing reads:aag 3 1 0 0 1\n2\n4 2 6\n
18 no driver, variable 1:aag 2 1 0 1 0\n4\n2\n
18 no driver, variable 511:aag 511 1 0 1 0\n2\n1023\n
18 no driver, nothing drawn but the output:aag 1 0 0 1 0\n2\n
ok no driver, not read:aag 3 1 0 1 0\n4\n4\n
18 two inputs with one variable:aag 2 2 0 0 0\n2\n2\n
18 two inputs with one variable, read:aag 2 2 0 1 0\n2\n2\n2\n
18 first and last input with one variable:aag 3 3 0 0 0\n2\n4\n2\n
18 input and flip-flop with one variable:aag 2 1 1 0 0\n2\n2 0\n
18 input and flip-flop with one variable, read:aag 2 1 1 1 0\n2\n2 2\n2\n
18 input and AND with one variable:aag 2 1 0 0 1\n2\n2 0 0\n
18 input and AND with one variable, read:aag 2 1 0 1 1\n2\n3\n2 0 0\n
18 two flip-flops with one variable:aag 2 0 2 0 0\n2 0\n2 1\n
18 two flip-flops with one variable, read:aag 2 0 2 1 0\n2 2\n2 2\n2\n
18 two flip-flops in the same words:aag 2 0 2 0 0\n4 0\n4 0\n
18 flip-flop and AND with one variable:aag 2 0 1 0 1\n2 0\n2 0 0\n
18 flip-flop and AND with one variable, read:aag 2 0 1 1 1\n2 2\n2\n2 0 0\n
18 two ANDs with one variable:aag 2 0 0 0 2\n2 0 0\n2 1 1\n
18 two ANDs with one variable, read:aag 2 0 0 1 2\n2\n2 0 0\n2 1 1\n
18 two ANDs in the same words:aag 2 1 0 0 2\n2\n4 2 2\n4 2 2\n

9 AND on itself:aag 1 0 0 1 1\n2\n2 2 1\n
9 AND on itself by its second net:aag 1 0 0 1 1\n2\n2 1 2\n
9 AND on itself, negated:aag 1 0 0 1 1\n2\n2 3 1\n
ok AND on itself that nothing reads:aag 1 0 0 0 1\n2 2 2\n
ok AND on itself beside the constant 0:aag 1 0 0 1 1\n0\n2 2 0\n
9 two ANDs in a ring:aag 2 0 0 1 2\n2\n2 4 1\n4 2 1\n
9 two ANDs in a ring, both negated:aag 2 0 0 1 2\n2\n2 5 1\n4 3 1\n
ok two ANDs in a ring that nothing reads:aag 3 1 0 1 2\n2\n2\n4 6 2\n6 4 2\n
9 three ANDs in a ring:aag 4 1 0 1 3\n2\n4\n4 8 2\n6 4 2\n8 6 2\n
ok a ring behind the last AND of a row that nothing reads:aag 4 1 0 1 3\n2\n2\n4 2 2\n6 4 8\n8 2 7\n
9 a ring behind the last AND of a row:aag 4 1 0 1 3\n2\n6\n4 2 2\n6 4 8\n8 2 7\n
9 a ring that is read by a flip-flop that nothing reads:aag 3 1 1 1 1\n2\n4 6\n2\n6 7 2\n
9 a ring that is shown negated:aag 1 0 0 1 1\n3\n2 2 1\n
9 a ring, ANDs and the constant 0 on the way to an output:aag 3 0 0 1 3\n6\n2 3 1\n4 2 0\n6 4 0\n
ok a ring, and ANDs that nothing reads behind it:aag 3 1 0 1 2\n2\n2\n4 5 2\n6 4 2\n
9 two rings of which one is shown:aag 2 0 0 1 2\n4\n2 2 1\n4 4 1\n
ok a ring that reads what is shown:aag 3 1 0 1 2\n2\n4\n4 2 2\n6 7 4\n
9 a ring beside a flip-flop:aag 3 0 1 1 2\n2 4\n4\n4 6 2\n6 2 5\n

ok text behind, symbols:aag 2 1 1 1 0\n2\n4 2\n4\ni0 dry\nl0 held\no0 valve\n
ok text behind, a comment:aag 2 1 1 1 0\n2\n4 2\n4\nc\ndrawn by hand\n
ok text behind, a comment without a line feed:aag 2 1 1 1 0\n2\n4 2\n4\nc
ok text behind, a letter:aag 2 1 1 1 0\n2\n4 2\n4\nx
ok text behind, a digit:aag 2 1 1 1 0\n2\n4 2\n4\n4
ok text behind, one more line of numbers:aag 2 1 1 1 0\n2\n4 2\n4\n6 7 8\n
ok text behind, a literal far above:aag 2 1 1 1 0\n2\n4 2\n4\n99999999999999999999\n
ok text behind, an empty line:aag 2 1 1 1 0\n2\n4 2\n4\n\n
ok text behind, a space:aag 2 1 1 1 0\n2\n4 2\n4\n\x20
ok text behind, a drawing:aag 2 1 1 1 0\n2\n4 2\n4\naag 512 0 0 0 0\n
ok text behind, CR LF:aag 2 1 1 1 0\n2\n4 2\n4\n\r\n
ok text behind, byte 0:aag 2 1 1 1 0\n2\n4 2\n4\n\x00
ok text behind, bytes of all kinds:aag 2 1 1 1 0\n2\n4 2\n4\n\x00\x01\x7F\x80\xFF\\\t\r\n\xFE
ok text behind an AND:aag 2 1 0 1 1\n2\n4\n4 2 2\nc\n
ok text behind the header:aag 0 0 0 0 0\nrubbish
17 symbols where a line is missing:aag 2 1 1 2 0\n2\n4 2\n4\ni0 dry\n
17 comment where a line is missing:aag 2 1 0 1 1\n2\n4\nc\n4 2 2\n
17 symbols between the lines:aag 2 1 1 1 0\n2\ni0 dry\n4 2\n4\n
17 inputs behind the flip-flops:aag 2 1 1 1 0\n4 2\n2\n4\n
17 ANDs before the outputs:aag 2 1 0 1 1\n2\n4 2 2\n4\n
"""

# For each kind of line: a header that asks for one, the line as it should be, and what its numbers are.
KINDS = {
    "input": (b"aag 3 1 0 0 0", b"2", ["own literal"]),
    "flip-flop": (b"aag 3 0 1 0 0", b"2 1 0", ["own literal", "next", "initial value"]),
    "output": (b"aag 3 0 0 1 0", b"1", ["literal"]),
    "AND": (b"aag 3 0 0 0 1", b"2 1 0", ["own literal", "first", "second"]),
}

# What may be wrong with the spelling of any line.
DAMAGES = {
    "missing": lambda line: b"",
    "without a line feed": lambda line: line,
    "empty": lambda line: b"\n",
    "with one number too many": lambda line: line + b" 0\n",
    "of five numbers": lambda line: b"2 1 0 0 0\n",
    "begins with a space": lambda line: b" " + line + b"\n",
    "ends with a space": lambda line: line + b" \n",
    "ends with CR LF": lambda line: line + b"\r\n",
    "ends with a tab": lambda line: line + b"\t\n",
    "ends with byte 0": lambda line: line + b"\x00\n",
    "ends with byte 255": lambda line: line + b"\xff\n",
    "begins with two zeros": lambda line: b"00" + line[1:] + b"\n",
    "begins with a zero": lambda line: b"0" + line + b"\n",
    "begins with a plus": lambda line: b"+" + line + b"\n",
    "begins with a minus": lambda line: b"-" + line + b"\n",
    "ends with a letter": lambda line: line + b"x\n",
    "of a letter": lambda line: b"x\n",
}

# What is added to a number so that a narrow counter would take it for a small one; the last two have 20 and 60 digits.
LARGE = [1024, 2 ** 16, 2 ** 32, 2 ** 64, 10 ** 19, 10 ** 59]


def written(rows):
    """The text of a drawing with these numbers, those of the header first."""
    return b"aag " + b"".join(b" ".join(b"%d" % word for word in row) + b"\n" for row in rows)


def spellings():
    """Every line damaged in every way, and every number of a line far too large."""
    for kind, (header, line, places) in KINDS.items():
        for damage, damaged in DAMAGES.items():
            yield 17, f"{kind} line {damage}", header + b"\n" + damaged(line)
        for gap, between in {"two spaces": b"  ", "a tab": b"\t", "a comma": b",", "no space": b""}.items():
            if b" " in line:
                yield 17, f"{kind} line, {gap} between", header + b"\n" + line.replace(b" ", between, 1) + b"\n"
        if kind in ("flip-flop", "AND"):
            yield 17, f"{kind} line of one number", header + b"\n2\n"
        if kind == "AND":
            yield 17, "AND line of two numbers", header + b"\n2 1\n"
        for place, name in enumerate(places):
            for large in LARGE:
                words = line.split(b" ")
                words[place] = b"%d" % (int(words[place]) + large)
                yield 17, f"{kind}, {name} {words[place].decode()}", header + b"\n" + b" ".join(words) + b"\n"


def headers():
    """A drawing with a line of each kind, and every size in turn far over its limit."""
    for place, name in enumerate("MILOA"):
        for large in LARGE:
            sizes = [3, 1, 1, 1, 1]
            sizes[place] += large
            yield 3, f"{name} {sizes[place]}", written([sizes, [2], [4, 6], [6], [6, 4, 2]])


def row_of(ands, nots, other={}, shown=None):
    """One input, and so many ANDs in a row, of which the last so many read the one before negated and the last is shown; in place of
    some ANDs another, and in place of the last another literal."""
    gates = [[4 + 2 * k, 2 + 2 * k + (ands - nots <= k), 1] for k in range(ands)]
    return written([[511, 1, 0, 1, ands], [2], [shown or 2 + 2 * ands]] + [other.get(k, gate) for k, gate in enumerate(gates)])


def limits():
    """Drawings at the limit of 256 cells and above it, with every order of the numbers around that limit."""
    yield "ok", "256 ANDs", row_of(256, 0)
    yield 3, "256 ANDs and 1 NOT", row_of(256, 1)
    yield "ok", "255 ANDs and 1 NOT", row_of(255, 1)
    yield 3, "255 ANDs and 2 NOTs", row_of(255, 2)
    yield "ok", "128 ANDs and 128 NOTs", row_of(128, 128)
    yield 3, "129 ANDs and 128 NOTs", row_of(129, 128)
    yield "ok", "255 ANDs and 1 NOT that all of them read", written(
        [[511, 1, 0, 0, 255], [2]] + [[4 + 2 * k, 3, 3] for k in range(255)])
    yield "ok", "256 ANDs of the highest variables, falling", written(
        [[511, 0, 0, 1, 256], [1022]] + [[1022 - 2 * k, 1020 - 2 * k if k < 255 else 1, 1] for k in range(256)])
    yield 9, "256 ANDs, two in a ring", row_of(256, 0, {1: [6, 8, 1]})
    yield "ok", "256 ANDs, two in a ring that nothing reads but ANDs that nothing reads", row_of(256, 0, {1: [6, 8, 1]}, 4)
    yield 9, "256 ANDs in a ring", row_of(256, 0, {0: [4, 514, 1]})
    yield "ok", "256 ANDs in a ring that nothing else reads", row_of(256, 0, {0: [4, 514, 1]}, 2)
    yield 3, "256 ANDs and 1 NOT, two in a ring", row_of(256, 1, {1: [6, 8, 1]})
    yield 18, "256 ANDs and 1 NOT, no driver", row_of(256, 1, {1: [6, 1022, 1]})
    yield 18, "256 ANDs and 1 NOT, two drivers", row_of(256, 1, {255: [4, 513, 1]})
    yield 17, "256 ANDs and 1 NOT, the last line too short", row_of(256, 1, {255: [514, 513]})
    # Every size of document 01 at its limit: 243 ANDs and a NOT for each input and flip-flop, the last of them shown.
    yield "ok", "every size at its limit", written(
        [[511, 6, 7, 8, 243]] + [[2 + 2 * k] for k in range(6)] + [[14 + 2 * k, 15 + 2 * k] for k in range(7)] + [[27]] * 8
        + [[28 + 2 * k, 3 + 2 * (k % 6), 26 + 2 * k] for k in range(243)])


def lengths():
    """Texts of a mebibyte and of a byte more; and texts that would be read otherwise with what the text before has left behind them."""
    p, q = b"aag 2 1 1 1 0\n2\n4 2\n4\n", b"aag 2 1 1 1 0\n2\n4 3\n5\n"
    for length, name in (MOST, "a mebibyte"), (ROOM, "a mebibyte and a byte"):
        def long(head):
            return head.ljust(MOST, b"\0").ljust(length, b"x")

        yield "ok", f"{name}, nothing drawn", long(b"aag 0 0 0 0 0\n")
        yield "111100008060", f"{name}, P of the bench sheet", long(p)
        yield "11110110100080C0004028", f"{name}, Q of the bench sheet", long(q + b"c\n")
        yield 17, f"{name} of zeros", long(b"")
        yield 17, f"{name}, header without a line feed", long(b"aag 0 0 0 0 0")
        yield 17, f"{name}, last line without a line feed", long(p[:-1])
        yield 17, f"{name}, an AND line missing", long(b"aag 2 1 0 1 1\n2\n4\n")
        yield 17, f"{name}, a line misspelled", long(b"aag 2 1 1 1 0\n02\n4 2\n4\n")
        yield 3, f"{name}, M 512", long(b"aag 512 0 0 0 0\n")
        yield 3, f"{name}, 256 ANDs and 1 NOT", long(row_of(256, 1))
        yield 9, f"{name}, AND on itself", long(b"aag 1 0 0 1 1\n2\n2 2 2\n")
        yield 18, f"{name}, no driver", long(b"aag 1 0 0 1 0\n2\n")
    yield 17, "a mebibyte of zeros and a line feed", b"".ljust(MOST, b"\0") + b"\n"
    yield 17, "a mebibyte of a header line and a line feed", b"aag 0 0 0 0 0".ljust(MOST, b"\0") + b"\n"
    for text, name in (p, "P"), (q, "Q"):
        for cut in range(len(text), 0, -1):
            yield "ok" if cut == len(text) else 17, f"{name}, {cut} bytes", text[:cut]
    yield "ok", "two inputs", b"aag 2 2 0 0 0\n2\n4\n"
    yield 17, "two inputs, one line", b"aag 2 2 0 0 0\n2\n"
    yield 17, "two inputs, no line", b"aag 2 2 0 0 0\n"
    yield "ok", "line feeds", b"aag 0 0 0 0 0" + b"\n" * 100
    yield 17, "line feeds left", b"aag 0 0 0 0 0"
    yield 17, "no text, a drawing left", b""


# Lines that are no question, and what is said of each.
NO_QUESTIONS = [
    b"no colon", b"", b"an escape of another letter:\\a", b"an escape cut short:\\x4", b"an escape of no digits:\\xGG",
    b"an escape in small letters:\\x0a", b"a backslash at the end:aag 0 0 0 0 0\\",
    b"two bytes over a mebibyte:aag 0 0 0 0 0\\n\\zxx", b"three bytes over a mebibyte:\\zx\\n\\x00",
    b"zero bytes to a mebibyte twice:\\z\\z", b"zero bytes above a mebibyte:\\zx\\z"]
MESSAGE = rb"NO QUESTION: a line is NAME:TEXT, at most 1,048,577 bytes, a backslash only in \n \t \r \\ \xHH, and \z below 1,048,576"


def drawn(draw):
    """A drawing of a few lines, often whole, otherwise damaged."""
    inputs, latches = draw.one_of((0, 1, 1, 2, 3, 6)), draw.one_of((0, 1, 1, 2, 3, 7))
    outputs, ands = draw.one_of((0, 1, 1, 2, 3, 8)), draw.one_of((0, 1, 2, 3, 4, 6))
    count = inputs + latches + ands
    most = count + draw.one_of((0, 0, 0, 1, 4))
    variables = range(1, most + 1) if draw.below(2) else draw.shuffled(range(1, most + 1))
    own = [2 * variable for variable in variables[:count]]
    # An AND reads inputs, flip-flops, constants and the ANDs that come before it in some order; now and then any of them.
    ranks = draw.shuffled(range(ands))
    loose = draw.below(6) == 0

    def read(rank):
        below = [own[inputs + latches + k] for k in range(ands) if loose or ranks[k] < rank]
        return draw.one_of([0] + own[:inputs + latches] + below * 2) + draw.below(2)

    lines = [[literal] for literal in own[:inputs]]
    for literal in own[inputs:inputs + latches]:
        lines.append([literal, read(ands)] + draw.one_of(([], [], [0], [1], [literal])))
    lines += [[read(ands)] for _ in range(outputs)]
    gates = [[literal, read(ranks[k]), read(ranks[k])] for k, literal in enumerate(own[inputs + latches:])]
    for _ in range(draw.one_of((0, 0, 0, 1, 1))):
        damage_numbers(draw, lines + gates, most)
    text = written([[most, inputs, latches, outputs, ands]] + lines + gates)
    for _ in range(draw.one_of((0, 0, 0, 0, 0, 1, 2))):
        text = damage_bytes(draw, text)
    return text + draw.one_of((b"", b"", b"c\n", b"i0 dry\nc\nby hand", b" 7", b"\xff"))


def damage_numbers(draw, rows, most):
    """Puts another number into a line: any literal, or an own literal of another line."""
    if rows:
        row, other = draw.one_of(rows), draw.one_of(rows)
        row[draw.below(len(row))] = draw.one_of((draw.below(2 * most + 4), other[0], other[0] + 1))


def damage_bytes(draw, text):
    """Takes a byte out, puts one in, or changes one; or takes a line out, or doubles one."""
    at, byte = draw.below(len(text) + 1), bytes([draw.one_of(b"0123456789 \n\t\r-x")])
    lines = text.split(b"\n")
    line = draw.below(len(lines))
    return draw.one_of((
        text[:at] + text[at + 1:], text[:at] + byte + text[at:], text[:at] + byte + text[at + 1:],
        b"\n".join(lines[:line] + lines[line + 1:]), b"\n".join(lines[:line + 1] + lines[line:])))


# The files.

def unescaped(spelled):
    """The bytes that a text with escapes stands for."""
    return spelled.encode().decode("unicode_escape").encode("latin-1")


def escaped(text):
    """A text as it stands in a question."""
    if len(text) >= MOST:
        return escaped(text[:MOST].rstrip(b"\0")) + b"\\z" + escaped(text[MOST:])
    named = {9: b"\\t", 10: b"\\n", 13: b"\\r", 92: b"\\\\"}
    return b"".join(named.get(byte, bytes([byte]) if 32 <= byte < 127 else b"\\x%02X" % byte) for byte in text)


def by_hand():
    for line in BY_HAND.split("\n"):
        if line:
            expected, question = line.split(" ", 1)
            name, spelled = question.split(":", 1)
            yield expected, name, unescaped(spelled)


def main():
    draw, kinds, questions = Draw(1), Counter(), {}

    def ask(expected, name, text):
        said = answer(text, draw)
        kind = said if said.startswith("REFUSED") else "ok"
        assert str(expected) in (kind.replace("REFUSED ", ""), said.replace(" ", ""), "any"), (expected, name, said)
        kinds[kind] += 1
        assert name not in questions and ":" not in name, name
        questions[name] = name.encode() + b":" + escaped(text), f"{name}\n{answers(text, said)}".encode()

    for part in by_hand(), spellings(), headers(), limits(), lengths():
        for question in part:
            ask(*question)
    for line in NO_QUESTIONS:
        name = line.split(b":")[0]
        questions[name.decode()] = line, name + b"\n" + MESSAGE
    for file in sorted(EXAMPLES.glob("*.aag")):
        ask("ok", file.name, file.read_bytes())
        file.with_suffix(".img").write_bytes(image(Drawing(file.read_bytes())))
    for k in range(1, 601):
        ask("any", f"drawn {k}", drawn(draw))

    (HERE / "stdin").write_bytes(b"".join(line + b"\n" for line, _ in questions.values()))
    (HERE / "stdout").write_bytes(b"".join(said + b"\n\n" for _, said in questions.values()))
    print(", ".join(f"{kind}: {kinds[kind]}" for kind in sorted(kinds)), file=sys.stderr)


if __name__ == "__main__":
    main()
