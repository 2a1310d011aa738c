#!/usr/bin/env python3
"""Lists the places in crates/*/src where an older form of Rattle may stand, by the points of docs/DESIGN-PASS.md.

    python3 tools/forms.py [POINT] [--list] [FOLDER]

prints how many places each point has in the sources of FOLDER (the current one if none is named), with --list each place. A place
that is listed may be kept: then the line beside it says why.
"""
import collections
import glob
import os
import re
import sys

NUMBERS = r'(number|fault|first|drawn|old_number|new_number)'


def sources(top):
    for path in sorted(glob.glob(os.path.join(top, 'crates/*/src/*.rt'))):
        yield os.path.relpath(path, top), open(path).read().split('\n')


def functions(lines):
    """Each function: the line it begins at, its signature with its contract, and its body."""
    at = 0
    while at < len(lines):
        if re.match(r'\s*(pub(\(crate\))? )?fn ', lines[at]):
            indent = len(lines[at]) - len(lines[at].lstrip())
            end = at
            while end < len(lines) and not re.match(' ' * indent + r'\}', lines[end]):
                end += 1
            head = at
            while head < end and not re.match(' ' * indent + r'\{', lines[head]) and not lines[head].rstrip().endswith(' {'):
                head += 1
            yield at + 1, lines[at:head + 1], lines[head + 1:end]
            at = end
        at += 1


def comment_above(lines, at):
    out = []
    at -= 2
    while at >= 0 and re.match(r'\s*(//|#\[)', lines[at]):
        out.append(lines[at])
        at -= 1
    return ' '.join(reversed(out))


def enums(lines):
    at = 0
    while at < len(lines):
        m = re.match(r'\s*(pub(\(crate\))? )?enum (\w+)', lines[at])
        if m:
            end = at
            while not re.match(r'\s*\}', lines[end]):
                end += 1
            cases = [c.strip() for c in lines[at + 1:end] if re.match(r'\s*[A-Z]\w*[,({ ]', c)]
            yield at + 1, m.group(3), cases
            at = end
        at += 1


def point_1(path, lines):
    """Own Options and Results, numbers for refusals, flags beside values, values that stand for none."""
    for at, name, cases in enums(lines):
        bare = [c for c in cases if re.match(r'\w+,', c)]
        if any(re.match(r'(Refused|Failed)\b', c) for c in cases) or (len(cases) == 2 and len(bare) == 1):
            yield at, 'enum ' + name
    for at, head, body in functions(lines):
        text = ' '.join(head)
        if re.search(r'-> u8\b', text) and re.search(r'FirstOrNone|number_of \(|earlier_number|place_in|PairNumber|refused_by', text):
            yield at, 'number for a refusal: ' + head[0].strip()
    for at, line in enumerate(lines):
        if re.match(r'\s+(pub )?' + NUMBERS + r': u8,', line):
            yield at + 1, 'number for a refusal: ' + line.strip()
        if re.match(r'\s+(pub )?(driven|twice|undriven|fine|failed|found|ok|valid): bool,', line):
            yield at + 1, 'flag beside a value: ' + line.strip()
        if re.match(r'\s*//', line) and re.search(r'\bor (the number of|how many|the count)\b|\b0 (where|for those|if) |count 0\b|stop byte 0', line):
            yield at + 1, 'value for none: ' + line.strip()


def skeleton(body):
    text = re.sub(r'//.*', '', '\n'.join(body))
    text = re.sub(r'b?"[^"]*"', 's', text)
    text = re.sub(r'\b\d+(u8|u16|u32|u64|usize)?\b', '0', text)
    names = {}
    keep = {'let', 'mut', 'if', 'else', 'while', 'for', 'in', 'match', 'return', 'loop', 'break', 'true', 'false', 'as'}

    def rename(m):
        word = m.group(0)
        if word in keep:
            return word
        return names.setdefault(word, 'x%d' % len(names))
    return re.sub(r'\s+', ' ', re.sub(r'[A-Za-z_]\w*', rename, text))


def point_2(tree):
    """Functions whose bodies are the same but for names, types and constants."""
    groups = collections.defaultdict(list)
    for path, lines in tree:
        for at, head, body in functions(lines):
            if sum(1 for l in body if l.strip() and not l.strip().startswith('//')) >= 4:
                groups[skeleton(body)].append((path, at, head[0].strip()))
    for group in groups.values():
        if len(group) > 1:
            for path, at, text in group:
                yield path, at, text + ' (%d alike)' % len(group)


def point_3(path, lines):
    """Loops that are no `for`."""
    for at, line in enumerate(lines):
        if re.match(r"\s*('\w+: )?(while\b|loop \{)|.*= loop \{", line) and not line.strip().startswith('//'):
            yield at + 1, line.strip()


def point_4(path, lines):
    """Functions that do nothing but convert, and conversions by `as`."""
    for at, head, body in functions(lines):
        inside = [l.strip() for l in body if l.strip()]
        if len(inside) == 1 and re.fullmatch(r'[\w.\[\]]+ as \w+', inside[0]):
            yield at, head[0].strip()
    for at, line in enumerate(lines):
        if re.search(r'\bas (usize|u8|u16|u32|u64|i32)\b', line) and not line.strip().startswith('//'):
            yield at + 1, line.strip()


def point_5(path, lines):
    """Functions that take parts of one thing side by side: tables, scratch."""
    for at, head, body in functions(lines):
        text = ' '.join(head)
        tables = len(re.findall(r'\b(old_next|new_next|old_out|new_out|old_seen|new_seen|next[01]?|out[01]?|seen[01]?|[now][01]): &', text))
        if tables >= 2 or (re.search(r'\bdepth: &mut', text) and re.search(r'\breach: &mut', text)):
            yield at, head[0].strip()


def point_6(path, lines):
    """Buffers with a length or place handed beside them, parallel lists."""
    for at, head, body in functions(lines):
        text = ' '.join(head)
        if re.search(r'text: &mut \[u8\], +at: usize|\bat: usize,? *\) -> usize|list: &\[u8\], +n: usize|, count: usize', text):
            yield at, head[0].strip()
    for at, line in enumerate(lines):
        m = re.match(r'\s+(pub )?\w+: \[\w+; ', line)
        if m and any(re.match(r'\s+(pub )?(count|len|kept|length|n): ', l) for l in lines[max(0, at - 5):at + 6]):
            yield at + 1, line.strip()


def point_7(path, lines):
    """Switches on a number or name of what to do."""
    for at, line in enumerate(lines):
        if re.match(r'\s*match (call|kind|which|step|op)\b', line) or re.search(r'\bcalls::[A-Z_]+\b', line) or re.match(r'(pub\(crate\) |pub )?const [A-Z_]+: usize = \d+;', line):
            yield at + 1, line.strip()


POINTS = {1: point_1, 3: point_3, 4: point_4, 5: point_5, 6: point_6, 7: point_7}


def main():
    args = [a for a in sys.argv[1:] if a != '--list']
    top = next((a for a in args if os.path.isdir(a)), '.')
    wanted = [int(a) for a in args if a.isdigit()] or [1, 2, 3, 4, 5, 6, 7]
    tree = list(sources(top))
    for point in wanted:
        places = []
        if point == 2:
            places = list(point_2(tree))
        else:
            for path, lines in tree:
                places += [(path, at, text) for at, text in POINTS[point](path, lines)]
        tests = sum(1 for p, _, _ in places if re.match(r'crates/(trial|brute_|align_trial|aiger_trial)', p))
        print('point %d: %d places, %d of them in the test programs' % (point, len(places), tests))
        if '--list' in sys.argv:
            for path, at, text in places:
                print('    %s:%d: %s' % (path, at, text))


main()
