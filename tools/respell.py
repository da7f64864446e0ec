#!/usr/bin/env python3
"""Spells the names that specs/ and proofs/ declare in snake case, as the library does: energyOf is energy_of.

usage: tools/respell.py            at the top of the repository, once, after the port.py of the kit

A name that begins with a capital, a type or a module, keeps its spelling; so do the names of src/, those that a file
imports from a library, and those of strings. It turns whole words: in .antt files everywhere, in .rt files in clauses
and imports, in must-fail edits, and in code spans of pages. It stops, and writes nothing, where two names would meet.
"""

import collections
import glob
import re
import sys

WORD = re.compile(r"[^\s(){}.;,@\"«»`:]+(?<!\])")
DECLARED = re.compile(
    r"^ *(?:(?:abbrev|unfoldable|pub|data|record|ruleset|constructor) )*([^\s(){}.;,@\"«»:=]+)"
    r"(?:(?: \{[^{}\n]*\}| \([^()\n]*\))* :(?= |$)| =)"
)
USE = re.compile(r"\buse ([^\s;{]+)\.\{([^}]*)\}")
ALIAS = re.compile(r"(\S+) as (\S+)")
COMMENT = re.compile(r"--(?= |$).*|//.*")
SPAN = re.compile(r"`[^`\n]+`")


def snake(name):
    """Each part of a name in snake case; a part that begins with a capital is a type's name."""
    parts = []
    for part in re.split(r"[-_]", name):
        if not part[:1].isupper():
            part = re.sub(r"([a-z0-9₀-₉'])([A-Z])", lambda m: m.group(1) + "_" + m.group(2).lower(), part)
            part = re.sub(r"([A-Z])", lambda m: m.group(1).lower(), part)
        parts.append(part)
    return "_".join(parts)


def odd(name):
    """Is it a name that snake case spells otherwise? Operators and names with one are left."""
    return bool(re.fullmatch(r"[A-Za-z][\w'₀-₉-]*", name)) and snake(name) != name


def read(path):
    with open(path, encoding="utf-8") as f:
        return f.read()


def own(path):
    return path.startswith("Rattle.") and not re.match(
        r"Rattle\.(core|std|std_alloc|std_collections|std_heap|std_io|libc|io|os)\.", path
    )


def imported(text):
    """The names that a file takes from a library, under the names that it gives them."""
    names = set()
    for path, items in USE.findall(text):
        if not own(path):
            for item in items.split(","):
                names.add(item.split(" as ")[-1].strip())
    return names


def aliases(text):
    names = set()
    for path, items in USE.findall(text):
        for item in items.split(","):
            if " as " in item:
                names.add(item.split(" as ")[-1].strip())
    return names


def turn(text, table, leave, labels=False):
    def one(m):
        w = m.group()
        if w in leave:
            return w
        # what follows a dot in a proof by hand is a label or a field, no lemma
        if labels and text[m.start() - 1 : m.start()] == "." and w in table:
            return snake(w)
        return table.get(w, w)

    return WORD.sub(one, text)


def turn_commented(text, table, leave, labels=False):
    """In a comment a word with a dash turns only where the file's code has it: it may be English."""
    code = {w for line in text.split("\n") for w in WORD.findall(COMMENT.sub("", line))}
    out = []
    for line in text.split("\n"):
        m = COMMENT.search(line)
        if m and not line.lstrip().startswith(("old:", "new:")):
            prose = {k: v for k, v in table.items() if k in code or "-" not in k}
            out.append(turn(line[: m.start()], table, leave, labels) + turn(m.group(), prose, leave))
        else:
            out.append(turn(line, table, leave, labels))
    return "\n".join(out)


def main():
    antt = sorted(glob.glob("crates/*/specs/**/*.antt", recursive=True) + glob.glob("crates/*/proofs/**/*.antt", recursive=True))
    rt = sorted(glob.glob("crates/*/src/**/*.rt", recursive=True))
    edits = sorted(glob.glob("crates/*/must-fail/**/*.edit", recursive=True))
    pages = sorted(["README.md", "hub/README.md"] + glob.glob("docs/**/*.md", recursive=True))
    texts = {p: read(p) for p in antt + rt + edits + pages}

    declared = collections.defaultdict(set)
    for p in antt:
        walked = p.split("/")[2] == "proofs" and len(p.split("/")) > 4
        for line in texts[p].split("\n"):
            m = DECLARED.match(line)
            # what a proof by hand declares goes by the labels that Rattle makes: those files are turned by hand
            if m and not walked and not line.lstrip().startswith("--"):
                declared[m.group(1)].add(p)
        for name in aliases(texts[p]):
            declared[name].add(p)
    for p in rt:
        for name in aliases(texts[p]):
            declared[name].add(p)

    table = {n: snake(n) for n in declared if odd(n)}
    # a lemma with the words of a definition is the definition's _lem, as the library has it
    words = collections.defaultdict(set)
    for n in declared:
        words[snake(n)].add(n)
    for new, ns in words.items():
        for n in ns:
            # port.py took the dash out of some already
            if len(ns) > 1 and ("-" in n or n == new and all("/proofs/" in p for p in declared[n])):
                table[n] = new + "_lem"
    # two names of one spelling in one file
    bad = []
    for p in antt + rt:
        code = "\n".join(COMMENT.sub("", line) for line in texts[p].split("\n"))
        have = {m.group() for m in WORD.finditer(code) if code[m.start() - 1] != "." and code[m.end() : m.end() + 1] != "."}
        if p in rt:
            # a definition may have the name of the function that computes it, but not a parameter's
            have &= set(table) | set(re.findall(r"\b(\w+): ", code))
        leave = imported(texts[p])
        by = collections.defaultdict(set)
        for w in have:
            by[table[w] if w in table and w not in leave else w].add(w)
        bad += [(p, n, sorted(ws)) for n, ws in by.items() if len(ws) > 1]
    if bad and "--force" not in sys.argv:
        for p, n, ws in bad:
            print(f"meet: {p}: {n}: {' '.join(ws)}")
        return 1
    turned = 0
    for p in antt + rt:
        # a function of src/ keeps its name, which is no lemma's
        words = {k: v for k, v in table.items() if k != snake(k)} if p in rt else table
        new = turn_commented(texts[p], words, imported(texts[p]), p.endswith("/Proof.antt"))
        if new != texts[p]:
            turned += 1
            with open(p, "w", encoding="utf-8") as f:
                f.write(new)
    for p in edits:
        new = turn_commented(texts[p], {k: v for k, v in table.items() if k != snake(k)}, set())
        if new != texts[p]:
            turned += 1
            with open(p, "w", encoding="utf-8") as f:
                f.write(new)
    for p in pages:
        new = SPAN.sub(lambda m: turn(m.group(), {k: v for k, v in table.items() if "-" not in k}, set()), texts[p])
        if new != texts[p]:
            turned += 1
            with open(p, "w", encoding="utf-8") as f:
                f.write(new)
    print(f"{len(table)} names, {turned} files")
    return 0


if __name__ == "__main__":
    raise SystemExit(main())
