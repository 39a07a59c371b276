#!/usr/bin/env python3
"""Brings the names of this repository's own definitions and lemmas to the spelling of its Rattle, once, after the toolchain's own script.

Definitions, fields and constructors go to snake case. In a lemma's name a dash joins two names, and a plain word is added with `_`.
Names of Rust functions, exported names, strings, inputs and outputs keep their spelling.

    python3 tools/port_names.py [--list]

--list prints the names, old and new, and writes nothing.
"""
import collections
import glob
import re
import sys

SPECS = sorted(glob.glob("crates/*/specs/**/*.antt", recursive=True))
LEMMAS = sorted(glob.glob("crates/*/proofs/*.antt"))
PROOFS = sorted(set(glob.glob("crates/*/proofs/*/**/*.antt", recursive=True)))
SOURCES = sorted(glob.glob("crates/*/src/**/*.rt", recursive=True))
EDITS = sorted(glob.glob("crates/*/must-fail/*.edit") + glob.glob("extra-edits/**/*.edit", recursive=True))

DECLARED = re.compile(r"^( *)((?:pub |unfoldable |abbrev )*)([^\s(){},;:.]+) (?:\{[^}]*\} )?(?:\([^)]*\) )*: ", re.M)
TOKEN = re.compile(r"[^\s(){}\[\],;.\"`|]+|.", re.S)

# Words that are names: of numbers, lists, tests and orders.
WORDS = set(
    "length take drop sets set append nil cons map add sub mul div mod pow suc zero one two le lt eq eqb leb ltb and or not true false min max"
    " replicate get_or absurd sym ap cond".split()
)



# Fields of the settings, and a constant that a field would hide.
CHOSEN = {"max-messages": "max_messages", "history-len": "history_len", "max-seen": "max_seen", "maxMessages": "message_limit"}


def text_of(path):
    with open(path, encoding="utf-8") as it:
        return it.read()


def snake(name):
    return re.sub(r"([a-z0-9])([A-Z]+)(?=[A-Z][a-z]|[^A-Za-z]|$)|([a-z0-9])([A-Z])", lambda m: (m[1] or m[3]) + "_" + (m[2] or m[4]).lower(), name)


def declared(path):
    """The names that a file declares, and whether each answers a generated goal."""
    for m in DECLARED.finditer(text_of(path)):
        if m[3] in ("use", "module", "open", "let", "data", "record", "mod"):
            continue
        rest = text_of(path)[m.end() : m.end() + 40]
        yield m[3], rest.startswith(("tie.", "goal.", "{M : Type 1} → statement"))


def imported(own):
    """The names that are brought in from outside the repository."""
    found = set()
    for path in SPECS + LEMMAS + PROOFS + SOURCES:
        for m in re.finditer(r"use ([^\s{;]+)\.\{([^}]*)\}", text_of(path)):
            place = m[1].split(".")
            if place[0] == "Rattle" and place[1] in own and "declared" not in place:
                continue
            found |= {n.strip().split(" as ")[0] for n in m[2].split(",")}
    return found


def renamed():
    own = {line.split(":")[0].strip() for line in text_of("crates.txt").split("\n") if ":" in line and not line.startswith("#")}
    names, answers = collections.Counter(), set()
    for path in SPECS + LEMMAS + PROOFS:
        for name, answer in declared(path):
            if answer:
                answers.add(name)
            else:
                names[name] += 1
    outside = imported(own)
    plain = {snake(n) for n in names if "-" not in n} | {n for n in outside if "-" not in n and n.isascii()} | WORDS
    out = {}
    for name in sorted(names):
        if name in answers or name in outside or not re.match(r"[a-z]", name):
            continue
        if "-" not in name and not re.search(r"[a-z0-9][A-Z]", name):
            continue
        parts = [snake(p) for p in name.split("-")]
        merged = []
        while parts:
            n = len(parts)
            while n > 1 and "_".join(parts[:n]) not in plain:
                n -= 1
            merged.append("_".join(parts[:n]))
            parts = parts[n:]
        new = merged[0]
        for a, b in zip(merged, merged[1:]):
            new += ("-" if a in plain and b in plain else "_") + b
        if new != name:
            out[name] = new
    known = set(names) | outside | answers
    apart(out, known)
    return out, known


def apart(names, known):
    """Where a lemma would have a definition's name, the lemma gets `_lem`."""
    definitions = {new for old, new in names.items() if "-" not in old}
    standing = {m[1] for path in SPECS + LEMMAS for m in re.finditer(r"[ (]([a-z0-9_]+)(?= [^:\n()]*:)", text_of(path))}
    for new in sorted(definitions & known - set(names)):
        names[new] = new + "_lem"
    for old, new in list(names.items()):
        if "-" in old and (new in definitions or new in known or new in standing or list(names.values()).count(new) > 1):
            names[old] = new + "_lem"
    names.update(CHOSEN)


def clashes(names, known):
    """Names that would fall together, over the whole repository or in one file."""
    said = set()
    taken = collections.defaultdict(set)
    for old, new in names.items():
        taken[new].add(old)
        if new in known and new not in names:
            said.add((old, new, "declared or imported"))
    for new, olds in taken.items():
        if len(olds) > 1:
            said |= {(o, new, "from " + " ".join(sorted(olds))) for o in olds}
    for path in SPECS + LEMMAS + PROOFS + SOURCES:
        tokens = set(TOKEN.findall(text_of(path)))
        for old in tokens & set(names):
            if names[old] in tokens and names[old] not in names:
                said.add((old, names[old], "stands in " + path))
    return sorted(said)


def turn(text, names, aliases=None):
    """Every token that is a name, but for the fields of generated records in a proof of a function."""
    tokens = TOKEN.findall(text)
    for i, token in enumerate(tokens):
        if token not in names:
            continue
        if aliases is not None and i > 1 and tokens[i - 1] == "." and tokens[i - 2] not in aliases:
            continue
        tokens[i] = names[token]
    return "".join(tokens)


def turn_clauses(text, names):
    """In a source only what stands in clauses, ghost lines and names in comments."""
    spans = []
    for m in re.finditer(r"\bghost\b[^;\n]*;", text):
        spans.append(m.span())
    for m in re.finditer(r"\b(?:requires|ensures|decreases|ghost \w+:|ghost invariant)\b[^{;\n]*\{", text):
        depth, at = 1, m.end()
        while depth and at < len(text):
            depth += {"{": 1, "}": -1}.get(text[at], 0)
            at += 1
        spans.append((m.end(), at))
    for m in re.finditer(r"//[^\n]*", text):
        spans += [(m.start() + k.start(), m.start() + k.end()) for k in re.finditer(r"`[^`]*`", m[0])]
    for m in re.finditer(r"#\[tactic\([^\]]*\)\]", text):
        spans.append(m.span())
    out, at = [], 0
    for a, b in sorted(spans):
        if a < at:
            continue
        out += [text[at:a], turn(text[a:b], names)]
        at = b
    return "".join(out + [text[at:]])


def write(path, text):
    if text != text_of(path):
        with open(path, "w", encoding="utf-8") as it:
            it.write(text)


def main():
    names, known = renamed()
    for old, new, why in clashes(names, known):
        print(f"falls together: {old} -> {new}: {why}")
    if "--list" in sys.argv:
        for old, new in sorted(names.items()):
            print(f"{old}\t{new}")
        return
    fields = set()
    for path in SPECS + LEMMAS:
        for name, _ in declared(path):
            fields.add(name)
    for path in SPECS + LEMMAS:
        write(path, turn(text_of(path), names))
    for path in PROOFS:
        text = text_of(path)
        aliases = set(re.findall(r"^use Rattle\.\S+ as (\S+)$", text, re.M)) - {"tie", "lts", "reads", "goal"}
        write(path, turn(text, names, aliases))
    for path in SOURCES:
        write(path, turn_clauses(text_of(path), names))


if __name__ == "__main__":
    main()
