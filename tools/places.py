#!/usr/bin/env python3
"""Counts, in crates/*/src, the places of the points of docs/DESIGN-PASS.md: python3 tools/places.py [-v] at the top of the repository.

-v prints each place as file:line: text. Lines that only comment, import or state a clause are passed over, but where a point counts clauses.
"""
import glob
import re
import sys

VERBOSE = "-v" in sys.argv


def lines():
    for path in sorted(glob.glob("crates/*/src/*.rt")):
        with open(path) as f:
            for number, text in enumerate(f, 1):
                yield path, number, text.rstrip("\n")


ALL = list(lines())
CLAUSE = re.compile(r"^\s*(requires|ensures)\b")
CODE = [x for x in ALL if not re.match(r"^\s*(//|ghost use|use |pub use )", x[2]) and not CLAUSE.match(x[2])]
CLAUSES = [x for x in ALL if CLAUSE.match(x[2])]

# Each function's head, on one line.
TEXTS = {}
for path, number, text in ALL:
    TEXTS.setdefault(path, []).append(text)
HEADS = []
for path, texts in TEXTS.items():
    whole = "\n".join(texts)
    for m in re.finditer(r"^\s*(?:pub(?:\(crate\))? )?(?:extern \"C\" )?fn [^{]*?\)(?: -> [^\n{]*)?(?=\n|\s*\{)", whole, re.M):
        HEADS.append((path, whole.count("\n", 0, m.start()) + 1, re.sub(r"\s+", " ", m.group(0)).strip()))


def some(source, pattern):
    return [x for x in source if re.search(pattern, x[2])]


def named(names):
    """Functions and types by their names, each where it is declared."""
    out = []
    for crate, name in (n.split("/") for n in names.split()):
        for path, number, text in ALL:
            if path.startswith("crates/%s/" % crate) and re.search(r"\b(fn|struct|enum|type|trait) %s\b" % name, text):
                out.append((path, number, text))
    return out


POINTS = [
    ("1 enums of the shape of Option or Result (a variant that says that there is nothing, or that all is refused)",
     some(CODE, r"^\s+(Nothing|NoDuct|Unknown|Failed|Refused|Refused\(.*\)|DuctTold\(.*\)),$")),
    ("1 numbers for refusals: a field that is 0 or a refusal's number, and what takes or gives one",
     some(CODE, r"^\s+pub (number|refusal): u32,")
     + some(HEADS, r"fn (judge|refuse|refused|[a-z_]*_refusal)\(.*(number: u32|-> u32$)")),
    ("1 coded options: a number that is 0 or one more than an edge's",
     some(CODE, r"\bEdge\([a-z_]+ - 1\)") + some(HEADS, r"fn (up|climber_up|first_entry|entry_behind|edge_of)\(.*-> (u32|Edge)$")),
    ("1 numbers for kinds: constants that number columns, and the two bits of an edge's use",
     some(CODE, r"^\s*(pub(\(crate\))? )?const [A-Z_]+: u8 =") + some(HEADS, r"fn along_code\(|\bused: u32\b")),
    ("2 twins",
     named("table/lesser table/greater routes/lesser run/run_one run/run_one_unanswered run/run_order run/run_order_unanswered run/run "
           "run/run_unanswered forest/VertexChange forest/EdgeChange forest/vertex_change_at forest/edge_change_at forest/same_component "
           "forest/same_bridge_block reading/Taken reading/Passed reading/take reading/pass reading/taken_at reading/passed_at "
           "reading/one_operand reading/two_operands reading/three_operands reading/take_one reading/take_two reading/take_three "
           "forecast/Forecast rewriting/Rewriting forecast/refused rewriting/refused writing/put_items writing/put_spans "
           "writing/write_shared writing/write_length joining/put_one joining/put_pair joining/put_three joining/raise_vertex "
           "joining/raise_edge step/district_refusal step/ring_refusal step/cabinet_refusal step/span_refusal networks/say_vertices "
           "networks/say_edges")),
    ("3 loops: while, and of them those that add 1 to an index",
     some(CODE, r"^\s*while ")),
    ("4 equality of numbered things by their numbers",
     some(CODE, r"\.0 (==|!=) [a-z_.]+\.0\b|\.0 (==|!=) 0\b|\)\.0 ==")),
    ("4 least, greatest and bytes of numbers by hand",
     named("table/lesser table/greater routes/lesser forecast/highest_bit")
     + some(CODE, r"/ (256|65536|16777216) % 256|% 256\) as u8|as u32\) \* 256 \+")),
    ("5 functions that take the table and the shape, or the limits, side by side",
     some(HEADS, r"(t|work): &(mut )?\[u32\], (shape: Shape|limits: Limits)")),
    ("5 clauses that say that the table holds a network", some(CLAUSES, r"\bHolds\b")),
    ("6 a buffer with a place in it beside", some(HEADS, r"out: &mut \[u8\],.* (at|from): (usize|u32)")),
    ("6 two arrays in one, or columns in one array", some(CODE, r"edges\[i \* 3|\[u32; (256|10304)\]")),
    ("7 a kind that is passed to choose what is done",
     some(HEADS, r"(told: Told|list: Listed|list: List|route: Route|groups: VertexGroups|allowance: Allowance)\b")),
]

ANSWERED = 0
for path in glob.glob("crates/*/proofs/**/Answers.antt", recursive=True):
    with open(path) as f:
        ANSWERED += len(re.findall(r"^pub \S+ : goal\.", f.read(), re.M))

for title, places in POINTS:
    print("%4d  %s" % (len(places), title))
    if VERBOSE:
        for path, number, text in places:
            print("        %s:%d: %s" % (path, number, text.strip()))
print("%4d  8 goals that are answered by hand (proofs/**/Answers.antt)" % ANSWERED)
