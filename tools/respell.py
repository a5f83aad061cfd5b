#!/usr/bin/env python3
"""Spells the repository's own names of definitions and lemmas as today's library spells its own.

usage: python3 tools/respell.py            at the top of a checkout: rewrites crates/ by the table tools/respell.txt
       python3 tools/respell.py table      writes that table anew, from the files under crates/

Words are in snake case: `codingOf` becomes `coding_of`, `found-below` becomes `found_below`. Where a lemma and the
definition that it is about would fall together, the lemma takes `_lem`. A part that begins with a capital is a fact, and
the dash before or after it stays. Names that a file takes from a library are left alone.
"""

import collections
import os
import re
import sys

HERE = os.path.dirname(os.path.abspath(__file__))
TABLE = os.path.join(HERE, "respell.txt")
TOKEN = re.compile(r"[^\s(){}\[\],.;:\"◌]+")
WORD = re.compile(r"[A-Za-z_][A-Za-z0-9_']*")
IMPORT = re.compile(r"\s*(?:pub |ghost )?use ([^\s{]+?)(?:\.\{(.*)\})?(?: as (\S+))?;?\s*$")
KEBAB = re.compile(r"[A-Za-z][\w'₀-₉]*(?:-[\w'₀-₉]+)+")
CAMEL = re.compile(r"[a-z]\w*[A-Z]")
DEFINED = re.compile(r" *(?:(?:abbrev|opaque|unfoldable|pub|instance)\s+)*(?:(?:record|data|ruleset)\s+)?([^\s:(){},.=|]+)(?:\s+[^=]*?)?\s*:(?:\s|$)")


def files(ending):
    for folder, dirs, names in os.walk("crates"):
        dirs[:] = sorted(d for d in dirs if d != "out")
        for f in sorted(names):
            if f.endswith(ending):
                yield os.path.join(folder, f)


def plain(line):
    """The line without its comment."""
    return re.sub(r"(^|\s)--.*", "", line)


def taken(path, crates):
    """The names that a file takes from a library."""
    out = set()
    with open(path, encoding="utf-8") as f:
        for line in f:
            m = IMPORT.match(line.rstrip("\n"))
            if m and m[2]:
                parts = m[1].split(".")
                if not (parts[0] == "Rattle" and len(parts) > 1 and parts[1] in crates):
                    out |= {n.strip().split(" as ")[0] for n in m[2].split(",")}
    return out


def snake(name):
    parts = name.split("-")
    if len(parts) > 1 and any(p[:1].isupper() for p in parts):
        return name
    return re.sub(r"(?<=[a-z0-9])([A-Z])(?=[a-z0-9_']|$)", lambda m: "_" + m[1].lower(), "_".join(parts))


def table():
    crates = set(os.listdir("crates"))
    tokens, defined, foreign = set(), set(), set()
    for path in files(".antt"):
        from_library = taken(path, crates)
        foreign |= from_library
        if path.endswith("/Proof.antt"):
            continue
        with open(path, encoding="utf-8") as f:
            for line in f:
                line = plain(line.rstrip("\n"))
                if IMPORT.match(line):
                    continue
                if m := DEFINED.match(line):
                    defined.add(m[1])
                tokens |= set(TOKEN.findall(line))
    names = {t for t in tokens if KEBAB.fullmatch(t) or (CAMEL.match(t) and WORD.fullmatch(t))}
    names = {t for t in names if t in defined or t not in foreign}
    new = {t: snake(t) for t in names if snake(t) != t}
    sharing = collections.defaultdict(list)
    for t, s in new.items():
        sharing[s].append(t)
    out = {}
    for s, them in sharing.items():
        # a dash marks the lemma; a name that stood so before, in snake case, is a library's, a field's, a lemma's or a definition's
        for t in them:
            out[t] = s + "_lem" if "-" in t and (len(them) > 1 or s in tokens) else s
    # lemmas whose names came into snake case before, beside a definition that comes there now
    for t in ("of_blocks", "each_in", "step_count", "in_order"):
        out[t] = t + "_lem"
    # operators whose uses came into snake case before
    out |= {"and-then": "and_then", "then-same": "then_same", "up-subℕ": "up_sub_ℕ"}
    with open(TABLE, "w", encoding="utf-8") as f:
        f.writelines(f"{t} {out[t]}\n" for t in sorted(out))


def respelled(text, new, token, field):
    def one(m):
        behind_dot = m.start() > 0 and text[m.start() - 1] == "."
        return field(m[0]) if behind_dot and field else new.get(m[0], m[0])

    return token.sub(one, text)


def turn():
    with open(TABLE, encoding="utf-8") as f:
        new = dict(line.split() for line in f)
    camel = {t: s for t, s in new.items() if "-" not in t and CAMEL.match(t)}
    crates = set(os.listdir("crates"))
    for path in files(".antt"):
        with open(path, encoding="utf-8") as f:
            lines = f.read().split("\n")
        from_library = taken(path, crates)
        defined = {m[1] for l in lines if (m := DEFINED.match(plain(l)))}
        mine = {t: s for t, s in new.items() if t not in from_library or t in defined}
        # in a function's own proof a name behind a dot may be a step's, which never takes `_lem`
        field = (lambda t: mine.get(t, t).removesuffix("_lem")) if path.endswith("/Proof.antt") else None
        for i, line in enumerate(lines):
            m = IMPORT.match(line)
            if m and (parts := m[1].split("."))[0] == "Rattle" and len(parts) > 1 and parts[1] in crates:
                at = line.find("{")
                lines[i] = line if at < 0 else line[:at] + respelled(line[at:], new, TOKEN, None)
            elif not m:
                lines[i] = respelled(line, mine, TOKEN, field)
        with open(path, "w", encoding="utf-8") as f:
            f.write("\n".join(lines))
    for path in files(".rt"):
        with open(path, encoding="utf-8") as f:
            text = f.read()
        with open(path, "w", encoding="utf-8") as f:
            f.write(respelled(text, camel, WORD, None))
    for path in files(".edit"):
        with open(path, encoding="utf-8") as f:
            lines = f.read().split("\n")
        of_code = any(l.startswith("file:") and l.endswith(".rt") for l in lines)
        for i, line in enumerate(lines):
            if line.startswith(("old:", "new:")):
                lines[i] = line[:4] + (respelled(line[4:], camel, WORD, None) if of_code else respelled(line[4:], new, TOKEN, None))
        with open(path, "w", encoding="utf-8") as f:
            f.write("\n".join(lines))


if __name__ == "__main__":
    table() if sys.argv[1:] == ["table"] else turn()
