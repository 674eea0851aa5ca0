#!/usr/bin/env python3
"""Respells the repository's own names of definitions, lemmas, fields and constructors: `placeAfter` and `is-told` to `place_after` and `is_told`.

usage: respell.py table ROOT      makes tools/respell.tsv beside this script from the law files and definitions of the tree ROOT; the table
                                 that stands here has rows by hand besides
       respell.py turn ROOT       respells ROOT by that table, in place: .antt files, the clauses of .rt files, and code spans of README.md and docs/

A dash stays between two names of definitions (`bridge_block-reduced`). A lemma that would have the name of a definition gets `_lem`. Names of
the library, of functions in src/ and of what the checker generates are left. To be run once: `any_below` is one name's old spelling and
another's new one.
"""
import collections
import glob
import itertools
import os
import re
import sys

WORD = re.compile(r"[^\s(){}.;,@\"«»]+")
PLAIN = re.compile(r"[a-z][A-Za-z0-9]*(?:[-_][A-Za-z0-9]+)*'*")
TABLE = os.path.join(os.path.dirname(os.path.abspath(__file__)), "respell.tsv")
OF_FUNCTIONS = ("Proof.antt", "Answers.antt", "Invariants.antt")
KIT_WORDS = "length take drop map set get_or replicate append cond not eqb ltb leb reverse sum".split()
# Names for which the rule gives one that is taken.
SPECIAL = {"goesOn": "goes_further"}
# Names of functions in src/, and names of variables that never stand beside the definition of that name.
MERGED = "each_seam pass_at passed_at place_after put_journals seam_at count_both adds_nothing".split()
# English words that are names too: left as they are in comments.
ENGLISH = "bridge-block bridge-blocks cut-off whole-run two-loss at-least of-all no-one".split()


def of_function(path):
    """A function's proof, and not a law file of that name, which stands right in proofs/."""
    return os.path.basename(path) in OF_FUNCTIONS and os.path.basename(os.path.dirname(path)) != "proofs"


def antt_files(root):
    return sorted(glob.glob(root + "/crates/*/specs/**/*.antt", recursive=True) + glob.glob(root + "/crates/*/proofs/**/*.antt", recursive=True))


def without_comments(text):
    return re.sub(r"--[^\n]*", "", text)


def snake(name):
    return re.sub(r"(?<=[a-z0-9])([A-Z])|(?<=[A-Z])([A-Z])(?=[a-z])", lambda m: "_" + m.group(0), name).lower()


def respelled(name, definitions):
    if not PLAIN.fullmatch(name):
        return name
    name = snake(name)
    parts = name.split("-")
    if "_".join(parts) in definitions:
        return "_".join(parts)
    best = None
    for cuts in itertools.product((False, True), repeat=len(parts) - 1):
        segments = [parts[0]]
        for cut, part in zip(cuts, parts[1:]):
            if cut:
                segments.append(part)
            else:
                segments[-1] += "_" + part
        if len(segments) > 1 and all(s in definitions for s in segments) and (best is None or len(segments) < len(best)):
            best = segments
    return "-".join(best) if best else "_".join(parts)


def foreign_names(texts):
    found = set()
    for text in texts:
        for m in re.finditer(r"^(?:pub |unfoldable )*use ([^;{\n]+?)(?:\.\{([^}]*)\}|$)", text, re.M):
            if not m.group(1).startswith("Rattle.") or m.group(1).startswith("Rattle.std"):
                found.update(WORD.findall(m.group(2) or ""))
    return found


def make_table(root):
    files = antt_files(root)
    texts = {f: open(f, encoding="utf-8").read() for f in files}
    foreign = foreign_names(texts.values())
    laws = [f for f in files if not of_function(f)]
    tokens, defined = set(), set()
    for f in laws:
        code = without_comments(texts[f])
        tokens.update(WORD.findall(code))
        if "/specs/" in f:
            defined.update(re.findall(r"(?m)^(?:unfoldable |abbrev )(?:pub )?(" + WORD.pattern + r")\s*:(?=\s|$)", code))
    definitions = {snake(d) for d in defined if PLAIN.fullmatch(d)} | set(KIT_WORDS)
    groups = collections.defaultdict(set)
    for t in tokens:
        groups[t if t in foreign else respelled(t, definitions)].add(t)
    table = {}
    for new, olds in groups.items():
        camel = [o for o in olds if re.search("[A-Z]", o) and PLAIN.fullmatch(o) and o not in foreign]
        if len(olds) == 1 or new in MERGED:
            table.update((o, new) for o in olds)
            continue
        if camel:
            holders = camel
        else:
            holders = [o for o in olds if o == new]
        for o in olds:
            table[o] = new if o in holders else new + "_lem"
    table.update(SPECIAL)
    for name in ("bridge_blocks", "goes_on"):
        table[name] = name
    rows = sorted((o, n) for o, n in table.items() if o != n and PLAIN.fullmatch(o))
    with open(TABLE, "w", encoding="utf-8") as out:
        out.writelines(f"{o}\t{n}\n" for o, n in rows)
    print(len(rows), "names")


def read_table():
    return dict(line.rstrip("\n").split("\t") for line in open(TABLE, encoding="utf-8"))


def turn_words(text, table, keep=(), foreign_modules=()):
    def one(m):
        w = m.group(0)
        before = re.search(r"(" + WORD.pattern + r")\.$", text[: m.start()])
        if w in keep or (before and before.group(1) in foreign_modules):
            return w
        return table.get(w, w)

    return WORD.sub(one, text)


def turn_comment(comment, table, known):
    def span(m):
        return "`" + turn_words(m.group(1), table) + "`"

    comment = re.sub(r"`([^`\n]*)`", span, comment)

    def bare(m):
        w = m.group(0)
        return table[w] if w in table and w in known and w not in ENGLISH and re.search("[-A-Z]", w) else w

    return WORD.sub(bare, comment)


def turn_antt(text, table, proves_function):
    known = set(WORD.findall(without_comments(text)))
    keep = set()
    if proves_function:
        keep = set(re.findall(r"(?m)^(" + WORD.pattern + r") : tie\.", text))
    modules = set(re.findall(r"(?m)^use (?!Rattle\.(?!std))(?:[^\s;{]*\.)?([^\s;{.]+)(?: as \S+)?;?$", text))
    modules |= set(re.findall(r"(?m)^use (?!Rattle\.(?!std))[^\s;{]* as ([^\s;]+);?$", text))
    modules |= {w for w in foreign_names([text]) if w[0].isupper()}
    out = []
    for line in text.split("\n"):
        at = re.search(r"(?:^|(?<=\s))--", line)
        code, comment = (line, "") if not at else (line[: at.start()], line[at.start() :])
        out.append(turn_words(code, table, keep, modules) + turn_comment(comment, table, known))
    return "\n".join(out)


def closing(text, start):
    depth = 0
    for i in range(start, len(text)):
        if text[i] == "{":
            depth += 1
        elif text[i] == "}":
            depth -= 1
            if depth == 0:
                return i + 1
    return len(text)


def turn_rt(text, table):
    out, at = [], 0
    for m in re.finditer(r"ghost\s+use\b[^;]*;|\b(?:requires|ensures|ghost)\b[^{};()]*(?=\{)", text):
        if m.start() < at:
            continue
        end = m.end() if m.group(0).endswith(";") else closing(text, m.end())
        out.append(text[at : m.start()])
        out.append(turn_words(text[m.start() : end], table))
        at = end
    out.append(text[at:])
    return "".join(out)


def turn_md(text, table):
    return re.sub(r"`([^`\n]+)`", lambda m: "`" + turn_words(m.group(1), table) + "`", text)


def rewrite(path, turned):
    text = open(path, encoding="utf-8").read()
    new = turned(text)
    if new != text:
        with open(path, "w", encoding="utf-8") as out:
            out.write(new)
        return 1
    return 0


def turn(root):
    table, count = read_table(), 0
    for f in antt_files(root):
        count += rewrite(f, lambda t: turn_antt(t, table, of_function(f)))
    for f in sorted(glob.glob(root + "/crates/*/src/**/*.rt", recursive=True)):
        count += rewrite(f, lambda t: turn_rt(t, table))
    for f in [root + "/README.md"] + sorted(glob.glob(root + "/docs/*.md")):
        count += rewrite(f, lambda t: turn_md(t, table))
    print(count, "files")


if __name__ == "__main__":
    {"table": make_table, "turn": turn}[sys.argv[1]](sys.argv[2])
