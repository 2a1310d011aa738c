#!/usr/bin/env python3
"""Brings the names that specs/ and proofs/ declare to one spelling: words in snake case, what is a type in upper camel case.

usage: respell.py            in the repository: rewrites specs/, proofs/, clauses of src/, must-fail edits and the pages in place
       respell.py --table    prints the names and what they become, and writes nothing

A name that is declared in lower camel case becomes snake case, or upper camel case where it names a type. A dash between two words becomes
an underscore; beside a part with a capital it stays. A name that would then be one that a file takes from elsewhere, or that of another
declaration, gets `_lem` behind it. Names of src/, texts, inputs and outputs stay. Run it once.
"""
import glob
import re
import sys

WORD = r"[^\s(){}\[\]:;,.\"`@→λ×⊎≡≤<≢∷+*/%^=|↦←]+"
TOKEN = re.compile(WORD)
HEAD = re.compile(r"^\s*(?:(?:pub|abbrev|unfoldable|record|data|mutual)\s+)*(" + WORD + r")(?:\s+[({].*)?\s+:\s+(.*)$")
DATA = re.compile(r"^\s*(?:pub\s+)?(?:record|data)\s+(" + WORD + r")")
GENERATED = ("Proof.antt", "Answers.antt", "Invariants.antt")


def antt(folder):
    for f in sorted(glob.glob(f"crates/*/{folder}/**/*.antt", recursive=True)):
        if "/out/" not in f:
            yield f


def read(f):
    with open(f, encoding="utf-8") as it:
        return it.read()


def declared():
    """Each declared name, and whether it is a type."""
    names = {}
    for folder in ("specs", "proofs"):
        for f in antt(folder):
            if f.endswith(GENERATED):
                continue
            for line in read(f).splitlines():
                if line.lstrip().startswith("--") or line.lstrip().startswith("use "):
                    continue
                m = HEAD.match(line)
                if m:
                    kind = m.group(2).rstrip()
                    names.setdefault(m.group(1), False)
                    names[m.group(1)] |= bool(re.search(r"Type( 0| 1)?$", kind.removesuffix(" where").rstrip()))
    return names


def taken():
    """The names that files take from libraries."""
    found = set()
    for pattern in ("crates/*/specs/**/*.antt", "crates/*/proofs/**/*.antt", "crates/*/src/**/*.rt"):
        for f in glob.glob(pattern, recursive=True):
            if "/out/" in f:
                continue
            own = set(glob.glob("crates/*"))
            for m in re.finditer(r"^\s*(?:ghost )?use ([^\s{;]+?)\.\{([^}]*)\}", read(f), re.M):
                crate = re.match(r"Rattle\.([a-z_0-9]+)\.", m.group(1))
                if crate and "crates/" + crate.group(1) in own and ".declared." not in m.group(1):
                    continue
                for n in m.group(2).split(","):
                    n = n.split(" as ")[-1].strip()
                    if n:
                        found.add(n)
    return found


def snake(part):
    if not re.match(r"[a-z]", part):
        return part
    return re.sub(r"(?<=[a-z0-9'])([A-Z])", lambda m: "_" + m.group(1).lower(), part)


def spelled(name, is_type):
    if is_type and "-" not in name:
        return name[0].upper() + name[1:]
    parts = [snake(p) for p in name.split("-")]
    out = parts[0]
    for a, b in zip(parts, parts[1:]):
        out += ("-" if a[:1].isupper() or b[:1].isupper() else "_") + b
    return out


def table():
    names = declared()
    others = taken()
    fixed = {n for n in names if spelled(n, names[n]) == n}
    turned = {}
    for n in sorted(names, key=lambda n: ("-" in n, n)):
        new = spelled(n, names[n])
        if new == n or n in others:
            continue
        if "-" not in n and new in fixed and new not in others:
            # the definition keeps the plain name; a lemma that the kit's scripts respelled already makes room (the field is_read may stay)
            if new != "is_read":
                turned[new] = new + "_lem"
            turned[n] = new
            continue
        while new in others or new in fixed or new in turned.values():
            new += "_lem"
        turned[n] = new
    return turned


def turn_line(line, turned, proof):
    def one(m):
        w = m.group(0)
        if proof and re.search(r"(?:\bc|before)\.$", line[: m.start()]):
            return w
        return turned.get(w, w)

    return TOKEN.sub(one, line)


def turn_comment(line, turned):
    """In a comment, names in camel case everywhere, and names with dashes where a listing begins with them or between backticks."""
    line = re.sub(r"\b[a-z][a-z0-9]*(?:[A-Z][a-z0-9]*)+\b", lambda m: turned.get(m.group(0), m.group(0)), line)
    line = re.sub(r"^(\s*--   )((?:\S+(?:, )?)+)", lambda m: m.group(1) + TOKEN.sub(lambda k: turned.get(k.group(0), k.group(0)), m.group(2)), line)
    return re.sub(r"`[^`]*`", lambda m: TOKEN.sub(lambda k: turned.get(k.group(0), k.group(0)), m.group(0)), line)


def turn_antt(text, turned, proof):
    out = []
    for line in text.split("\n"):
        at = line.find("-- ") if not line.lstrip().startswith("--") else 0
        if line.lstrip().startswith("--"):
            out.append(turn_comment(line, turned))
        else:
            code, tail = (line, "") if at <= 0 else (line[:at], line[at:])
            out.append(turn_line(code, turned, proof) + turn_comment(tail, turned))
    return "\n".join(out)


def turn_rt(text, turned):
    """Clauses and ghost lines: from a line that begins with one of their words to where its braces close."""
    out, deep, inside = [], 0, False
    for line in text.split("\n"):
        s = line.lstrip()
        if s.startswith("//"):
            out.append(turn_comment(line, turned))
            continue
        if not inside and re.match(r"(requires|ensures|ghost)\b", s):
            inside, deep = True, 0
        if inside:
            out.append(turn_line(line, turned, False))
            deep += line.count("{") - line.count("}")
            if deep <= 0 and (("{" in line) or s.endswith(";") or "}" in line):
                inside = False
        else:
            out.append(line)
    return "\n".join(out)


def turn_page(text, turned):
    return re.sub(r"`[^`\n]*`", lambda m: m.group(0) if "/" in m.group(0) else TOKEN.sub(lambda k: turned.get(k.group(0), k.group(0)), m.group(0)), text)


def main():
    turned = table()
    if "--table" in sys.argv:
        for n in sorted(turned):
            print(n, turned[n])
        return
    work = [(f, lambda t, f=f: turn_antt(t, turned, f.endswith(GENERATED))) for folder in ("specs", "proofs") for f in antt(folder)]
    work += [(f, lambda t: turn_rt(t, turned)) for f in glob.glob("crates/*/src/**/*.rt", recursive=True)]
    work += [(f, lambda t: turn_page(t, turned)) for f in ["README.md"] + glob.glob("docs/**/*.md", recursive=True)]
    for f in glob.glob("crates/*/must-fail/*.edit"):
        work.append((f, lambda t: "\n".join(turn_line(l, turned, False) if l.startswith(("old:", "new:")) else l for l in t.split("\n"))))
    changed = 0
    for f, turn in work:
        text = read(f)
        new = turn(text)
        if new != text:
            with open(f, "w", encoding="utf-8") as it:
                it.write(new)
            changed += 1
    print(f"{len(turned)} names, {changed} files")


main()
