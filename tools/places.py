#!/usr/bin/env python3
"""Lists the places in crates/*/src that docs/DESIGN-PASS.md counts, point by point.

    tools/places.py [POINT] [ROOT]

A line for each place: the file, the line, what stands there. The last line of a point says how many there are.
"""
import collections
import glob
import os
import re
import sys

LOOP = re.compile(r"^\s*(while\b.*|for \w+ in .*\.\..*)\{\s*$")
PARAM = re.compile(r"(\w+): ([^,()]+(?:\[[^\]]*\])?[^,()]*)")


class Function:
    def __init__(self, path, line, head, clauses, body):
        self.path, self.line, self.head, self.clauses, self.body = path, line, head, clauses, body
        self.name = re.search(r"fn (\w+)", head).group(1)

    def at(self):
        return "%s:%d %s" % (self.path, self.line, self.name)

    def params(self):
        inner = self.head[self.head.index("(") + 1:]
        return [(n, t.strip()) for n, t in PARAM.findall(inner.split("->")[0]) if n != "self"]


def functions(path):
    lines = open(path).read().split("\n")
    i = 0
    while i < len(lines):
        if not re.match(r"\s*(pub )?(const )?fn \w+", lines[i]):
            i += 1
            continue
        start, indent = i, len(lines[i]) - len(lines[i].lstrip())
        while not re.match(r"^ {%d}\{?\s*$|^ {%d}.*\{$" % (indent, indent), lines[i]) and not lines[i].endswith(";"):
            i += 1
        opening = i
        while i < len(lines) and lines[i].rstrip() != " " * indent + "}":
            i += 1
        top = "\n".join(lines[start:opening + 1])
        cut = re.search(r"\n\s*(requires|ensures)", top)
        head = top[:cut.start()] if cut else top
        clauses = top[cut.start():] if cut else ""
        yield Function(path, start + 1, head, clauses, lines[opening + 1:i])
        i += 1


def sources(root):
    os.chdir(root)
    return sorted(glob.glob("crates/*/src/**/*.rt", recursive=True))


def enums(path):
    text = open(path).read()
    for m in re.finditer(r"^(?:pub )?enum (\w+) \{\n(.*?)^\}", text, re.S | re.M):
        variants = [v.strip() for v in m.group(2).split("\n") if v.strip() and not v.strip().startswith("//")]
        yield text.count("\n", 0, m.start()) + 1, m.group(1), variants


def point_1(files):
    """own enums of the shape of Option or Result; a flag with a value beside it; numbers for kinds or refusals"""
    for p in files:
        for line, name, variants in enums(p):
            empty = sum(1 for v in variants if "(" not in v)
            full = len(variants) - empty
            refusing = any(v.startswith(("Refus", "No(", "Err", "Stopped", "Unknown", "Incomplete")) for v in variants)
            if (full == 1 and empty >= 1 and len(variants) <= 3) or (refusing and full >= 1):
                yield "%s:%d enum %s" % (p, line, name)
        text = open(p).read()
        for m in re.finditer(r"^(?:pub )?struct (\w+)[^\n]*\{\n(.*?)^\}", text, re.S | re.M):
            if re.search(r": bool,", m.group(2)) and len(re.findall(r"^\s*(?:pub )?\w+: ", m.group(2), re.M)) >= 2:
                yield "%s:%d struct %s, a flag and values" % (p, text.count("\n", 0, m.start()) + 1, m.group(1))
        for m in re.finditer(r"^(?:pub )?const (\w+): (u8|u16|u32) = \d+;", text, re.M):
            yield "%s:%d const %s, a number" % (p, text.count("\n", 0, m.start()) + 1, m.group(1))
        for m in re.finditer(r"^\s*(?:pub )?(kind|mode|number|format): u32\b", text, re.M):
            yield "%s:%d %s: u32" % (p, text.count("\n", 0, m.start(1)) + 1, m.group(1))
        for f in functions(p):
            for n, t in f.params():
                if n in ("kind", "mode") and t in ("u8", "u16", "u32"):
                    yield "%s(%s: %s)" % (f.at(), n, t)


def shape(body):
    text = " ".join(l.split("//")[0].strip() for l in body)
    text = re.sub(r"\b\d[\d_xXa-fA-F]*\b", "0", text)
    return re.sub(r"\b[A-Za-z_]\w*\b(?!\s*!)", lambda m: m.group(0) if m.group(0) in KEEP else "x", text)


KEEP = {"if", "else", "for", "while", "match", "return", "let", "mut", "in", "as"}


def point_2(files):
    """twins: functions whose bodies are the same but for names, types and numbers"""
    groups = collections.defaultdict(list)
    for p in files:
        for f in functions(p):
            s = shape(f.body)
            if len(s) > 40:
                groups[s].append(f)
    for fs in groups.values():
        if len(fs) > 1:
            yield "; ".join(f.at() for f in fs)
    names = collections.defaultdict(dict)
    for p in files:
        for f in functions(p):
            names[p.split("/")[1]][f.name] = f
    for crate in sorted(names):
        for n, f in sorted(names[crate].items()):
            if n.endswith("_lent"):
                yield "%s and its instance for numbers" % f.at()


def point_3(files):
    """loops that count an index by hand, or that index a slice by the counter"""
    for p in files:
        for f in functions(p):
            for k, l in enumerate(f.body):
                if not LOOP.match(l):
                    continue
                indent = len(l) - len(l.lstrip())
                end = k + 1
                while end < len(f.body) and not (f.body[end].strip().startswith("}")
                                                 and len(f.body[end]) - len(f.body[end].lstrip()) == indent):
                    end += 1
                inside = "\n".join(f.body[k + 1:end])
                counter = re.match(r"\s*for (\w+) in", l)
                if counter is None:
                    yield "%s: %s" % (f.at(), l.strip())
                elif re.search(r"\w+\[%s( [+-] 1)?\]" % counter.group(1), inside):
                    yield "%s: %s" % (f.at(), l.strip())


BY_HAND = re.compile(r"^(min|max|least|lesser|greater|wide\w*|copy|put_zeros|is_same\w*|is_said|is_header|same_\w+"
                     r"|bits_of|of_bits|wrapping_\w+|pow2|read_u\d+_le|put_u\d+_le|part|words_of|other|number_of"
                     r"|bits_word|refusal_number|mode_of|is_signature|from_bits|print_\w+|folded|one)$")


def point_4(files):
    """equality, order, copying, conversion and printing written by hand, by the functions' names"""
    for p in files:
        for f in functions(p):
            if BY_HAND.match(f.name):
                yield f.at()


def point_5(files):
    """a fact in the contracts of three functions or more; three parameters or more that travel together"""
    facts = collections.defaultdict(set)
    sets = collections.defaultdict(list)
    for p in files:
        for f in functions(p):
            for m in re.finditer(r"requires(?: \w+)? \{(.*?)\n?\s*\}(?=\n|$)", f.clauses, re.S):
                text = " ".join(m.group(1).split())
                text = re.sub(r"\.(now|old|new)\b", "", text)
                for part in re.split(r" × ", text):
                    part = part.strip().strip("()")
                    if len(part) > 8:
                        facts[part].add(f.at())
            ps = [n for n, t in f.params()]
            for a in range(len(ps)):
                for b in range(a + 3, len(ps) + 1):
                    sets[tuple(ps[a:b])].append(f.at())
    for fact, fs in sorted(facts.items()):
        if len(fs) >= 3:
            yield "%s, in %d contracts" % (fact, len(fs))
    best = {k: v for k, v in sets.items() if len(v) >= 3}
    for k, v in sorted(best.items()):
        if not any(k != o and len(best[o]) >= len(v) and " ".join(k) in " ".join(o) for o in best):
            yield "(%s), in %d functions" % (", ".join(k), len(v))


def point_6(files):
    """an array with a length beside it; an array copied or searched by hand; room and how much of it is used"""
    for p in files:
        text = open(p).read()
        for m in re.finditer(r"^(?:pub )?struct (\w+)[^\n]*\{\n(.*?)^\}", text, re.S | re.M):
            if re.search(r": \[\w+; \w+\]", m.group(2)) and re.search(r"(len|count|n): usize", m.group(2)):
                yield "%s:%d struct %s" % (p, text.count("\n", 0, m.start()) + 1, m.group(1))
        for f in functions(p):
            for k, l in enumerate(f.body):
                if re.search(r"= \[0\w*; [A-Z\d_]+\]|= (buffer|room)\(\)", l):
                    yield "%s: %s" % (f.at(), l.strip())


def point_7(files):
    """a switch on which step to run: a match each of whose arms calls a function of this repository"""
    for p in files:
        for f in functions(p):
            text = "\n".join(f.body)
            for m in re.finditer(r"match [^\n]+ \{\n(.*?)\n    \}", text, re.S):
                arms = re.findall(r"=> *(?:\{\n\s*)?([a-z_:]+)\(", m.group(1))
                if len(arms) >= 2:
                    yield "%s: a match with %d calls" % (f.at(), len(arms))


def point_8(files):
    """answers and lemmas in proofs/, and their lines"""
    total = collections.Counter()
    for p in glob.glob("crates/*/proofs/**/*.antt", recursive=True):
        text = open(p).read()
        n = len(re.findall(r"^ *pub \S+ :", text, re.M))
        kind = "answers" if p.endswith("Answers.antt") else "invariants" if p.endswith("Invariants.antt") else "lemmas"
        total[kind] += n
        total[kind + " files"] += 1
        total[kind + " lines"] += text.count("\n")
    for k in sorted(total):
        yield "%s: %d" % (k, total[k])


POINTS = [point_1, point_2, point_3, point_4, point_5, point_6, point_7, point_8]


def main(args):
    which = [int(a) for a in args if a.isdigit()] or range(1, 9)
    roots = [a for a in args if not a.isdigit()]
    files = sources(roots[0] if roots else ".")
    for n in which:
        f = POINTS[n - 1]
        print("point %d: %s" % (n, f.__doc__))
        places = list(f(files))
        for place in places:
            print("  " + place)
        if n != 8:
            print("point %d: %d places" % (n, len(places)))


if __name__ == "__main__":
    main(sys.argv[1:])
