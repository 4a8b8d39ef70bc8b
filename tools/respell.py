#!/usr/bin/env python3
"""Respells the repository's own names as today's Rattle does, once, after port.py.

usage: python3 tools/respell.py          at the top of the repository

Definitions, lemmas, fields and constructors of specs/ and proofs/ go into snake case (rollOf and roll-of
become roll_of), and facts with a dash into upper camel case (One-fault becomes OneFault). A lemma that would
have its definition's name gets _lem (same-rank beside sameRank becomes same_rank_lem). Names that Rattle
makes (goals, steps), functions of src/, strings, inputs and outputs keep their names. A name that a file
takes from std or from the logic keeps its spelling there. It names what would fall together, and then writes
nothing.
"""

import glob
import re
import sys

NAME = r"[^\s(){}\[\];:,.\"`|]+"
TOKEN = re.compile(r'"(?:[^"\\]|\\.)*"|' + NAME)
HEAD = re.compile(r"^\s*((?:abbrev |unfoldable |pub |data |record |mutual )*)(" + NAME + r") :(?= |$)(.*)$")
LOCAL = re.compile(r"^\s*(?:pub )?((?:" + NAME + r" )+):(?= )")
USE = re.compile(r"^(?:ghost )?use ([^;{]*)(?:\{([^}]*)\})?", re.M)
FOREIGN = ("Rattle.std", "denote.", "borrow.", "mathlib.", "Prim.", "lib.", "native.", "logic.")


def respelled(name):
    """The name as today's Rattle spells it."""
    if not re.fullmatch(r"[A-Za-z][A-Za-z0-9_'-]*", name):
        return name
    if name[0].isupper():
        return "".join(p[:1].upper() + p[1:] for p in name.split("-")) if "-" in name else name
    words = re.sub(r"([a-z0-9])([A-Z])", r"\1_\2", name).replace("-", "_")
    return words.lower()


def texts():
    """Every file of specs/ and proofs/, with its text."""
    for kind in ("specs", "proofs"):
        for path in sorted(glob.glob(f"crates/*/{kind}/**/*.antt", recursive=True)):
            with open(path, encoding="utf-8") as f:
                yield path, f.read()


def own_names(files):
    """The names that the repository gives, and those that Rattle makes."""
    own, made = set(), set()
    for _, text in files:
        for line in text.split("\n"):
            m = HEAD.match(line)
            if not m or line.lstrip().startswith("--"):
                continue
            kind, name, rest = m.groups()
            (made if re.match(r" (goal|need)\.", rest) else own).add(name)
    return own - made, made


def foreign(text):
    """The names that a file takes from std or from the logic."""
    taken = set()
    for m in USE.finditer(text):
        if m.group(1).strip().startswith(FOREIGN) and m.group(2):
            taken |= {part.strip().split(" as ")[-1] for part in m.group(2).split(",")}
    return taken


def turn(text, names):
    """The text with its names respelled, strings apart."""
    keep = foreign(text)

    def one(m):
        token = m.group(0)
        return token if token.startswith('"') or token in keep else names.get(token, token)

    return TOKEN.sub(one, text)


def turn_code(text, names):
    """The same in a file of src/: in clauses, ghost members and their imports alone."""
    out, depth = [], 0
    for line in text.split("\n"):
        ghost = depth > 0 or re.match(r"\s*(ghost|requires|ensures)\b", line)
        if ghost and not line.lstrip().startswith("//"):
            out.append(turn_clause(line, names, foreign(text)))
            depth += line.count("{") - line.count("}")
        else:
            out.append(line)
    return "\n".join(out)


def turn_clause(line, names, keep):
    def one(m):
        token = m.group(0)
        return token if token.startswith('"') or token in keep else names.get(token, token)

    return TOKEN.sub(one, line)


def turn_page(text, names):
    """The same in a page: between backquotes alone."""
    return re.sub(r"`[^`\n]+`", lambda m: TOKEN.sub(lambda t: names.get(t.group(0), t.group(0)), m.group(0)), text)


def all_respelled(own):
    """The new name of each name that changes; where several would have one, the definition keeps it."""
    groups = {}
    for name in sorted(own):
        groups.setdefault(respelled(name), []).append(name)
    names = {}
    for new, olds in groups.items():
        first = next((n for n in olds if re.search("[A-Z]", n)), olds[0])
        names |= {n: new if n == first else new + "_lem" for n in olds}
    return {n: new for n, new in names.items() if n != new}


def clashes(files, own, names):
    """Names that would fall together where both stand in one file."""
    for path, text in files:
        seen = {}
        tokens = (set(TOKEN.findall(text)) & own) | foreign(text)
        for token in sorted(tokens):
            new = token if token in foreign(text) else names.get(token, token)
            if new in seen and seen[new] != token:
                yield f"{path}: {seen[new]} and {token} both become {new}"
            seen.setdefault(new, token)


def main():
    files = list(texts())
    own, made = own_names(files)
    names = all_respelled(own)
    met = list(clashes(files, own, names))
    if met:
        print("\n".join(met), file=sys.stderr)
        raise SystemExit(1)
    for path, text in files:
        write(path, text, turn(text, names))
    for path in sorted(glob.glob("crates/*/src/**/*.rt", recursive=True)):
        with open(path, encoding="utf-8") as f:
            text = f.read()
        write(path, text, turn_code(text, names))
    for path in ["README.md", *sorted(glob.glob("docs/*.md"))]:
        with open(path, encoding="utf-8") as f:
            text = f.read()
        write(path, text, turn_page(text, names))
    print(f"respell: {len(names)} names")


def write(path, old, new):
    if new != old:
        with open(path, "w", encoding="utf-8") as f:
            f.write(new)


if __name__ == "__main__":
    main()
