#!/usr/bin/env python3
"""Counts, in the .rt files of crates/, the places of the points of docs/DESIGN-PASS.md.

    tools/design/places.py            the counts, a line for each
    tools/design/places.py -v         and each place
    tools/design/places.py -v 3       those of one point

It looks at text alone; docs/DESIGN-PASS.md says what each count is and which of its places stay.
"""
import collections
import os
import re
import sys

VERBOSE = "-v" in sys.argv
ONLY = [a for a in sys.argv[1:] if a != "-v"]


def sources():
    for folder, _, files in sorted(os.walk("crates")):
        if "/src" in folder and "/out" not in folder:
            for name in sorted(files):
                if name.endswith(".rt"):
                    yield os.path.join(folder, name)


TEXTS = {path: open(path, encoding="utf-8").read() for path in sources()}


def tell(point, what, places):
    if ONLY and point not in ONLY:
        return
    print(f"{point}  {len(places):4}  {what}")
    if VERBOSE:
        for place in places:
            print(f"         {place}")


def lines(pattern):
    found = []
    for path, text in TEXTS.items():
        for at, line in enumerate(text.split("\n"), 1):
            if re.search(pattern, line) and not line.lstrip().startswith("//"):
                found.append(f"{path}:{at}: {line.strip()}")
    return found


def blocks(word):
    """(path, name, body) of each struct or enum."""
    for path, text in TEXTS.items():
        for m in re.finditer(rf"^(?:pub )?{word} (\w+)(?:<[^>]*>)? \{{\n(.*?)^\}}", text, re.S | re.M):
            yield path, m.group(1), m.group(2)


FUNCTION = re.compile(
    r"^( *)(?:#\[[^\n]*\]\n *)*(?:pub(?:\(crate\))? )?(?:extern \"C\" )?fn (\w+)(?:<[^{]*?>)?\((.*?)\)(.*?)\n\1\{\n(.*?)^\1\}|"
    r"^( *)(?:pub(?:\(crate\))? )?fn (\w+)(?:<[^{]*?>)?\(([^)]*)\)([^\n]*) \{\n(.*?)^\6\}",
    re.S | re.M,
)


def functions():
    """(path, name, parameters, head, body) of each function."""
    for path, text in TEXTS.items():
        for m in FUNCTION.finditer(text):
            g = m.groups()
            yield (path,) + (g[1:5] if g[1] else g[6:10])


FUNCTIONS = list(functions())


def parameters(text):
    flat = re.sub(r"\s+", " ", text)
    depth, part, parts = 0, "", []
    for c in flat:
        depth += c in "([{<"
        depth -= c in ")]}>"
        if c == "," and depth == 0:
            parts.append(part)
            part = ""
        else:
            part += c
    parts.append(part)
    return [p.strip() for p in parts if p.strip()]


# ---- 1: shapes of Option and Result, flags, numbers for kinds and refusals
two = []
for path, name, body in blocks("enum"):
    cases = re.findall(r"^    (\w+)(\(.*\))?,$", body, re.M)
    if len(cases) == 2 and any(c[1] for c in cases):
        two.append(f"{path}: {name}")
tell("1", "enums of two cases, one of which holds a value", two)
flags = []
for path, name, body in blocks("struct"):
    fields = re.findall(r"^    (?:pub )?(\w+): (.*),$", body, re.M)
    flags += [f"{path}: {name}.{f}" for f, t in fields if t == "bool" and len(fields) > 1]
tell("1", "bool fields beside values", flags)
REFUSALS = r"(?:\w*fault\w*|\w*judge|refus\w*|damage|put|put_first|find|take_out|compact|limits_block|forward)"
refusals = [
    f"{p}: {n}"
    for p, n, a, h, b in FUNCTIONS
    if re.fullmatch(REFUSALS, n) and "-> u64" in h.split("\n")[0]
]
refusals += [f"{p}: {n}.refusal" for p, n, b in blocks("struct") if re.search(r"refusal: u64", b)]
tell("1", "refusals as numbers: results and fields (not the calls for C)", refusals)
kinds = [f"{p}: {n}" for p, n, a, h, b in FUNCTIONS if re.search(r"\bfamily: u64", a)]
kinds += lines(r"\bside( = 0u8|: u8)")
tell("1", "numbers for kinds: functions that take the family's number, the end that moved", kinds)

# ---- 2: twins
shapes = collections.defaultdict(list)
for path, name, args, head, body in FUNCTIONS:
    text = re.sub(r"//[^\n]*", "", body)
    text = re.sub(r"\b[A-Z]\w*", "T", text)
    text = re.sub(r"\b\d[\w.]*", "N", text)
    text = re.sub(r"\s+", " ", text).strip()
    if len(text) > 60:
        shapes[text].append(f"{path}: {name}")
tell("2", "functions whose bodies differ only in types and numbers", [" = ".join(g) for g in shapes.values() if len(g) > 1])
SIZES = re.compile(r"\d+$")
types = collections.defaultdict(list)
for word in ("struct", "enum"):
    for path, name, body in blocks(word):
        if SIZES.search(name):
            types[SIZES.sub("", name)].append(name)
tell("2", "types named by a size", [f"{k}: {', '.join(v)}" for k, v in sorted(types.items())])
FIELDS = collections.defaultdict(list)
for path, name, body in blocks("struct"):
    FIELDS[tuple(re.findall(r"^    (?:pub )?(\w+): ", body, re.M))].append(f"{path}: {name}")
tell("2", "structs with the same names of fields", [" = ".join(v) for k, v in FIELDS.items() if len(v) > 1 and k])
tell("2", "functions of arithmetic on one type", [f"{p}: {n}" for p, n, a, h, b in FUNCTIONS if n in ("add", "sub", "neg", "mul", "div", "scale", "over", "real_over") and "self" not in a])

# ---- 3: loops
tell("3", "`while` and `loop`", lines(r"^\s*(while\b|.*\bloop \{)"))
tell("3", "`for` and chains of iterators", lines(r"^\s*for .* in |\.iter\(\)\.\w+\("))

# ---- 4: written by hand
BY_HAND = r"(?:flag|flag_of|wide|component|byte|word|put_bytes|number_above|triple_above|ordered_above|same|count|glyph|spell|places|decimal|hex|field|head|angle|angles|line_at|lines_of|six|failing)"
tell("4", "conversions, orders and printing by hand", [f"{p}: {n}" for p, n, a, h, b in FUNCTIONS if re.fullmatch(BY_HAND, n) and "_vectors" not in p or n == "wide"])

# ---- 5: facts and parameters that recur
facts = collections.Counter()
for path, name, args, head, body in FUNCTIONS:
    mine = set()
    for clause in re.findall(r"requires(?: \w+)? \{(.*?)\}\n", head + "\n", re.S):
        for fact in clause.split(" × "):
            fact = re.sub(r"\.(now|old)\b", "", fact.strip().strip("()"))
            mine.add(re.sub(r"\d+", "N", fact))
    facts.update(mine)
tell("5", "facts that stand in the `requires` of three functions or more", [f"{n:3}  {f}" for f, n in facts.most_common() if n >= 3])
pairs = collections.Counter()
for path, name, args, head, body in FUNCTIONS:
    names = [p.split(":")[0].strip() for p in parameters(args)]
    for a, b in zip(names, names[1:]):
        pairs[a + ", " + b] += 1
tell("5", "neighbouring parameters of five functions or more", [f"{n:3}  {f}" for f, n in pairs.most_common() if n >= 5])

# ---- 6: buffers with a length, parallel arrays
tell("6", "structs of slots and a count", [f"{p}: {n}" for p, n, b in blocks("struct") if re.search(r"slots: \[", b)])
parallel = [
    f"{p}: {n}"
    for p, n, a, h, b in FUNCTIONS
    if re.search(r"\bxs: &.*\bys: &|\bqs: &.*\bcs: &|\brx: &.*\bry: &|\by0: &|\bangles: &mut \[f64\].*\bflags: &|\bnumbers: &\[f64\].*\bbytes: &", re.sub(r"\s+", " ", a))
]
tell("6", "functions that take parallel lists", parallel)
tell("6", "functions that take a list and the number of its elements that count", [f"{p}: {n}" for p, n, a, h, b in FUNCTIONS if re.search(r"\[\w+; \d+\],? .*\b(n|count): usize|\bat: usize, ", re.sub(r"\s+", " ", a)) and "extern" not in h])

# ---- 7: switches
tell("7", "switches on a number: which function to run", lines(r"^\s*match (id|family|joint)\b|^\s*if i == \d \{"))

# ---- 8: proofs
answers = [os.path.join(d, f) for d, _, fs in os.walk("crates") for f in fs if "/out" not in d and f in ("Answers.antt", "Invariants.antt", "Proof.antt")]
tell("8", "files of proofs of functions", sorted(answers))
total = sum(len(open(os.path.join(d, f), encoding="utf-8").read().split("\n")) for d, _, fs in os.walk("crates") for f in fs if "/out" not in d and "/proofs" in d and f.endswith(".antt"))
if not ONLY or "8" in ONLY:
    print(f"8  {total:4}  lines below proofs/")
