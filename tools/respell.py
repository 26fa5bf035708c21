#!/usr/bin/env python3
"""Respells the repository's own names in specs/, proofs/ and clauses, once, after the kit's port.py.

usage: python3 tools/respell.py [--check]      at the top of the repository

- A word in camel case becomes snake case, as `rowProduct` `row_product`. Types and modules keep their capitals.
- In a lemma's name a dash joins two names, and a plain word is added with `_`: `members-length` stays, `part-apart` is `part_apart`.
- A field has no dash.
- A lemma that would get the name of a definition gets `_lem` after it.
- `getD`, which std calls get_or, is that in a longer name too.
Functions of src/, exported names, strings, inputs and outputs stay. The same spellings turn in the must-fail edits.
With --check nothing is written, and the table of names is printed.
"""
import glob
import re
import sys

WORD = re.compile(r'[^\s(){}.;,@"«»`\[\]]+')
CAMEL = re.compile(r"[a-z][a-z0-9]*(?:_[a-z0-9]+)*[A-Z]")
SIG = re.compile(r"^( *)((?:(?:pub|abbrev|unfoldable) +)*)([^\s(){}:;,.]+) +: ")
RECORD = re.compile(r"^( *)(?:pub +)?record +(\S+)")
DATA = re.compile(r"^( *)(?:pub +)?data +(\S+)")
# what the definitions of std and of the logic are called, where a lemma's name joins them
STD = set("""append map take drop length reverse replicate zip foldl get_or get_elem? set cons nil add mul sub suc pred min max cond not
filter slice sum div mod pow le lt eq and or xor shl shr zero one leb ltb eqb none some true false""".split())
OPERATORS = {"◌andThen◌": "◌and_then◌"}


def antt():
    return sorted(set(glob.glob("crates/*/specs/*.antt") + glob.glob("crates/*/proofs/*.antt")))


def everything():
    return sorted(glob.glob("crates/*/specs/**/*.antt", recursive=True) + glob.glob("crates/*/proofs/**/*.antt", recursive=True))


def declared(path):
    """The names that a file declares: (kind, name), where kind is def, lemma, field or type."""
    out, inside = [], None
    for line in open(path, encoding="utf-8"):
        if not line.strip() or line.lstrip().startswith("--"):
            continue
        indent = len(line) - len(line.lstrip(" "))
        if inside is not None and indent <= inside:
            inside = None
        m = RECORD.match(line) or DATA.match(line)
        if m:
            inside = indent
            out.append(("type", m[2]))
            continue
        if line.lstrip().startswith(("use ", "pub use ", "mod ", "pub mod ", "module ", "in ", "let ", "|", "[")):
            continue
        m = SIG.match(line)
        if not m:
            continue
        if inside is not None:
            out.append(("field", m[3]))
        elif "abbrev" in m[2] or "unfoldable" in m[2] or "/specs/" in path:
            out.append(("def", m[3]))
        else:
            out.append(("lemma", m[3]))
    return out


def snake(name):
    """A word in camel case, in snake case; each part between dashes for itself."""
    parts = []
    for part in name.split("-"):
        part = re.sub(r"^getD(?![a-z])", "get_or", part)
        if CAMEL.match(part):
            part = re.sub(r"(?<=[a-z0-9])([A-Z])", lambda m: "_" + m[1].lower(), part)
        parts.append(part)
    return "-".join(parts)


def table():
    kinds, defs = {}, set()
    for path in antt():
        for kind, name in declared(path):
            kinds.setdefault(name, set()).add(kind)
            if kind == "def":
                defs.add(snake(name))
    known = STD | {d for d in defs if "-" not in d}
    new = {}
    for name, of in kinds.items():
        if of == {"type"} or not name[0].islower():
            continue
        s = snake(name)
        if "-" in s:
            if "field" in of:
                s = s.replace("-", "_")
            else:
                parts = s.split("-")
                s = parts[0]
                for before, part in zip(parts, parts[1:]):
                    s += ("-" if before in known and part in known else "_") + part
        new[name] = s
    # a lemma beside a definition or a field of its name
    taken = {}
    for name, s in sorted(new.items()):
        taken.setdefault(s, []).append(name)
    for s, names in taken.items():
        if len(names) == 1:
            continue
        firsts = [n for n in names if "def" in kinds[n] or "field" in kinds[n]]
        for n in names:
            if n not in firsts and firsts:
                new[n] = s + "_lem"
    fields = {n: snake(n).replace("-", "_") for n, of in kinds.items() if "field" in of}
    both = {n for n, of in kinds.items() if "field" in of and "lemma" in of}
    taken = {new.get(n, n) for n, of in kinds.items() if "def" in of and not ("field" in of or "lemma" in of)}
    both = {n for n in both if snake(n).replace("-", "_") in taken}
    for n in both:
        new[n] = snake(n).replace("-", "_") + "_lem"
    clash = {}
    for name, s in new.items():
        if kinds[name] != {"field"}:
            clash.setdefault(s, []).append(name)
    for s, names in clash.items():
        if len(names) > 1 and any("field" not in kinds[n] for n in names):
            print("fall together:", s, [(n, sorted(kinds[n])) for n in names], file=sys.stderr)
    return {a: b for a, b in new.items() if a != b}, fields, both


FIELDS = {}


def turned(text, names):
    def one(m):
        w = m[0]
        if m.start() and text[m.start() - 1] == ".":
            return FIELDS[w] if w in FIELDS else snake(w) if CAMEL.match(w) and "-" not in w else w
        if w in OPERATORS:
            return OPERATORS[w]
        if w in names:
            return names[w]
        # a word of one file: a variable, a name in a proof's own file
        if CAMEL.match(w) and "-" not in w and w.rstrip("'").isidentifier() and w[0].islower():
            return snake(w)
        return w

    return WORD.sub(one, text)


def turn_antt(text, names):
    out = []
    for line in text.split("\n"):
        head, dash, tail = line.partition("--") if line.lstrip().startswith("--") else (line, "", "")
        if dash:
            tail = re.sub(r"`[^`]*`", lambda m: turned(m[0], names), tail)
            tail = WORD.sub(lambda m: names[m[0]] if m[0] in names and "-" not in m[0] and CAMEL.match(m[0]) else m[0], tail)
            out.append(head + dash + tail)
        else:
            out.append(turned(line, names))
    return "\n".join(out)


CLAUSE = re.compile(r"(?:requires|ensures)\s*\*?\s*(?:\w+\s*)?\{")


def turn_rt(text, names):
    def span(m):
        return turned(m[0], names)

    text = re.sub(r"ghost\s+use\b[^;]*;", span, text)
    out, at = [], 0
    while True:
        m = CLAUSE.search(text, at)
        if not m:
            break
        depth, end = 1, m.end()
        while depth:
            depth += {"{": 1, "}": -1}.get(text[end], 0)
            end += 1
        out.append(text[at : m.end()])
        out.append(turned(text[m.end() : end], names))
        at = end
    return "".join(out) + text[at:]


def turn_edit(text, names):
    """The texts of an edit; in a file of specs/ or proofs/ and in a clause a projection is written tight, as port.py writes it."""
    out = []
    for line in text.split("\n"):
        m = re.match(r"(file|old|new): ?", line)
        if m and m[1] != "file":
            tail = turned(line[m.end() :], names)
            tail = re.sub(r"now \(«?(\w+)»? \.entry\)", r"\1.now", tail)
            tail = re.sub(r"\((\w+\.now)\)", r"\1", tail)
            tail = re.sub(r"\((\w+(?: \.[\w«»]+)+)\)", lambda n: n[1].replace(" ", ""), tail)
            tail = re.sub(r"(?<=[\w)]) \.(?=[\w«])", ".", tail)
            line = m[0] + tail
        out.append(line)
    return "\n".join(out)


def main():
    names, fields, both = table()
    FIELDS.update(fields)
    if "--check" in sys.argv:
        for a, b in sorted(names.items()):
            print(a, b, sep="\t")
        return
    for path in everything():
        t = open(path, encoding="utf-8").read()
        here = dict(names)
        own = {n for kind, n in declared(path) if kind == "field"}
        uses = " ".join(re.findall(r"use [^{\n]*\{([^}]*)\}", t)).replace(",", " ").split()
        lemmas = {n for kind, n in declared(path) if kind == "lemma"} | set(uses)
        for n in both:
            if n in own or n not in lemmas:
                here[n] = fields[n]
        u = turn_antt(t, here)
        if u != t:
            open(path, "w", encoding="utf-8").write(u)
    for path in sorted(glob.glob("crates/*/src/*.rt")):
        t = open(path, encoding="utf-8").read()
        u = turn_rt(t, names)
        if u != t:
            open(path, "w", encoding="utf-8").write(u)
    for path in sorted(glob.glob("crates/*/must-fail*/*.edit")):
        t = open(path, encoding="utf-8").read()
        u = turn_edit(t, names if ".antt\n" in t else {})
        if u != t:
            open(path, "w", encoding="utf-8").write(u)


main()
