#!/usr/bin/env python3
"""Turns each Proof.antt of a crate that only answers goals into Invariants.antt and Answers.antt.

usage: convert.py CRATE_FOLDER NAMES_JSON [FUNCTION..]

NAMES_JSON is what `rt check --generated FOLDER --old-names` writes for the crate. A file that it cannot read stays as it is.
"""
import json
import os
import re
import sys

W = r"[^\s(){}.;,@\"«»\[\]\\]+"
TOKEN = re.compile(r"--[ \t][^\n]*|\"(?:[^\"\\\n]|\\.)*\"|«[^»]*»|" + W)
TRIVIAL = {"search rules", "omega arith", "search needs", "search (rules)", "refl", "search (rules, arith)", "tt"}


LAMBDA = re.compile(r"(?s)λ ((?:[^\s.]+ )*[^\s.]+)\. ?(.*)")
FN = re.compile(r"(?m)^[ \t]*(?:pub(?:\([a-z]+\))? )?(?:const )?(?:unsafe )?(?:extern \"C\" )?fn (\w+)")
CLAUSE = re.compile(r"(?m)^[ \t]+(requires|ensures)\*? (?:(\w+) )?\{")


def clauses(root):
    """crate -> function's last name -> {requires: [..], ensures: [..]}, for functions with named clauses."""
    found = {}
    for c in os.listdir(os.path.join(root, "crates")):
        for d, ds, fs in os.walk(os.path.join(root, "crates", c, "src")):
            for f in fs:
                text = open(os.path.join(d, f), encoding="utf-8").read()
                ms = list(FN.finditer(text))
                for m, n in zip(ms, ms[1:] + [None]):
                    part = text[m.start(): n.start() if n else len(text)]
                    part = part.split("\n{", 1)[0]
                    of = {"requires": [], "ensures": []}
                    for k in CLAUSE.finditer(part):
                        of[k[1]].append(k[2])
                    for k in of:
                        if len(of[k]) < 2 or None in of[k]:
                            of[k] = []
                    found.setdefault(c, {})[m[1]] = of
    return found


def nested(of, digits):
    """The fields for a path into clauses that were joined by pairs, first and rest."""
    d = list(digits)
    i = 0
    while i < len(of) - 1:
        if not d:
            return None
        k = int(d.pop(0))
        if k == 0:
            return [of[i]] + d
        if k > 1:
            return [of[i + k]] + d if i + k < len(of) else None
        i += 1
    return [of[i]] + d


def tuple_parts(t):
    """The parts of a tuple in brackets at the outside, or None."""
    t = t.strip()
    if not (t.startswith("(") and t.endswith(")")):
        return None
    parts, d, j = [], 0, 1
    for i, ch in enumerate(t):
        if ch in "([{":
            d += 1
        elif ch in ")]}":
            d -= 1
            if d == 0 and i != len(t) - 1:
                return None
        elif ch == "," and d == 1:
            parts.append(t[j:i].strip()); j = i + 1
    parts.append(t[j:-1].strip())
    return parts if len(parts) > 1 else None


def norm(s):
    return re.sub(r"[-_]", "", s).lower()


def args_of(text):
    """The arguments of an application: words or brackets."""
    out, i = [], 0
    while i < len(text):
        if text[i].isspace():
            i += 1
            continue
        if text.startswith("--", i):
            i = text.find("\n", i)
            if i < 0:
                break
            continue
        j, d = i, 0
        if text[i] in "([{":
            while True:
                if text[j] in "([{":
                    d += 1
                elif text[j] in ")]}":
                    d -= 1
                    if d == 0:
                        break
                j += 1
            j += 1
        else:
            while j < len(text) and not text[j].isspace() and text[j] not in "()":
                j += 1
        out.append(text[i:j])
        i = j
    return out


def segments(text):
    """Top-level pieces, each with the comments above it."""
    out, cur, pend = [], [], []
    for l in text.split("\n"):
        if l.startswith("--"):
            if cur:
                out.append("\n".join(cur)); cur = []
            pend.append(l)
        elif l and not l[0].isspace():
            if cur:
                out.append("\n".join(cur))
            cur = pend + [l]; pend = []
        else:
            (cur if cur else pend).append(l)
    if cur:
        out.append("\n".join(cur))
    return out


def head(seg):
    """(kind, name) of a piece: use, module, sig, eq, unfolding, other."""
    l = next((x for x in seg.split("\n") if x and not x.startswith("--")), "")
    if l.startswith(("use ", "pub use ")):
        return "use", ""
    if l.startswith("unfolding "):
        return "unfolding", ""
    if l.startswith("module "):
        return "module", ""
    m = re.match(r"(?:(?:abbrev|pub|unfoldable|opaque|record|data)\s+)*(%s)\s*(.*)" % W, l)
    if not m:
        return "other", ""
    body = seg
    name = m.group(1)
    rest = l[m.start(1) + len(name):]
    if re.match(r"\s*:(?!:)", rest) or re.match(r"(pub |abbrev |unfoldable |record |data )", l) :
        return "sig", name
    if re.match(r"\s*(\{[^}]*\}|\([^)]*\))*\s*:", rest):
        return "sig", name
    return "eq", name


def find_spec(text):
    """The last declaration and the arguments of its tie.spec."""
    m = re.search(r"(?m)^(?:-- [^\n]*\n)*pub (%s) : \{M : Type 1\} → statement M\n(?:unfolding[^\n]*\n)?" % W, text)
    if not m:
        return None
    k = text.find("tie.spec", m.end())
    if k < 0:
        return None
    # to the closing bracket, or the end
    d, j = 0, k + len("tie.spec")
    while j < len(text):
        if text[j] in "([{":
            d += 1
        elif text[j] in ")]}":
            if d == 0:
                break
            d -= 1
        j += 1
    return m.start(), args_of(text[k + len("tie.spec"):j])


def convert(path, names, crate, fn, known):
    text = open(path, encoding="utf-8").read()
    spec = find_spec(text)
    if not spec:
        return "no tie.spec"
    if re.search(r"tie\.(Start|Then|Else|After|In-|At-|Joined)", text):
        return "names places: " + convert_tie(path, text, names, crate, fn, known)
    at, args = spec
    body = text[:at]
    tail = ""
    loops = names["loops"]
    needs = names["needs"]
    nl = len(loops)
    # leading loop arguments: names that are invariants or measures
    inv, k = [], 0
    sigs = dict(re.findall(r"(?m)^(?:(?:abbrev|pub|unfoldable)\s+)*(%s) : tie\.((?:invariant|decreases|measure)\S*)" % W, body))
    while k < len(args) and (args[k] in sigs):
        inv.append(args[k]); k += 1
    rest = args[k:]
    said = []
    order = None
    if len(rest) == len(needs):
        order = [n[1] for n in needs]
    else:
        said.append(f"tie.spec has {len(rest)} answers and there are {len(needs)} goals: by name")
    # by name
    byname = {}
    for o, n in needs:
        for s in (o, n):
            byname.setdefault(norm(s), n)
            byname.setdefault(norm("overflow-" + s), n)
    local = {}  # local answer name -> goal
    for m in re.finditer(r"(?m)^(?:(?:abbrev|pub|unfoldable)\s+)*(%s) : tie\.Need-(\S+)" % W, body):
        g = byname.get(norm(m[2]))
        if order and m[1] in rest:
            g = order[rest.index(m[1])]
        if not g:
            said.append(f"no goal for {m[1]} : Need-{m[2]}")
            g = m[2]
        local[m[1]] = g
    inline = []
    for i, a in enumerate(rest):
        if a in local:
            continue
        t = a[1:-1].strip() if a.startswith("(") else a
        m = LAMBDA.match(t)
        term = m[2].strip() if m else None
        if m and re.sub(r"\s+", " ", term) in TRIVIAL:
            continue
        g = order[i] if order else None
        if g is None:
            said.append("lost: " + re.sub(r"\s+", " ", a))
            continue
        if m:
            inline.append(f"{g} : tie.Need-{g}\n{g} {m[1].split()[0]} =\n    {term}\n")
            local[g] = g
        else:
            inline.append(f"{g} : tie.Need-{g}\n{g} = {t}\n")
            local[g] = g
    body = body.rstrip("\n") + "\n\n" + "\n".join(inline)
    # places and steps
    places = {}
    steps = {}
    for p, n in zip(names["places"], names["places_by_name"]):
        places[norm(p[0])] = n
        if p[2][0]:
            steps.setdefault(norm(p[2][0]), p[2][1])
    loopname = {norm(l[0][0]): l[0][1] for l in loops}
    drops = set(inv) | {"invariant-loop", "decreases-loop"} | set(sigs)

    def tie(m):
        w, more = m[1], m[2]
        if w.startswith("Need-"):
            g = byname.get(norm(w[5:])) or w[5:]
            return "goal." + (w[5:] if w[5:] in {n for _, n in needs} else g)
        for kind in ("invariant-", "decreases-"):
            if w.startswith(kind):
                return "goal." + kind + loopname.get(norm(w[len(kind):]), w[len(kind):])
        return "goal." + places.get(norm(w), w)

    # drop the loops' arguments after a tie name
    dropped = "|".join(sorted(map(re.escape, drops), key=len, reverse=True)) or "$^"
    body = re.sub(r"tie\.(%s)((?: (?:%s)(?![\w'-]))*)" % (W, dropped), tie, body)

    def field(m):
        w = m[1]
        if w == "well-formed":
            return ".well_formed"
        if w in ("true", "false", "before", "args", "ensures", "result", "new", "old", "now"):
            return m[0]
        s = steps.get(norm(w))
        return "." + s if s else m[0]

    body = renamed_steps(body, names, known.get(crate, {}).get(fn.split(".")[-1], {}).get("requires"))
    # rename local answers, drop κs, mark pub
    names_map = {k: v for k, v in local.items() if k != v}

    def word(m):
        return names_map.get(m[0], m[0])

    lines = []
    for l in body.split("\n"):
        if not l.lstrip().startswith(("use ", "--")):
            l = re.sub(r"(?<![\w.'-])(?:%s)(?![\w'-])" % "|".join(map(re.escape, sorted(names_map, key=len, reverse=True))), word, l) if names_map else l
        lines.append(l)
    body = "\n".join(lines)
    goals = set(local.values())
    for g in goals:
        body = re.sub(r"(?m)^(?:pub )?(%s) : goal\.\S+.*$" % re.escape(g), lambda m: f"pub {g} : goal.{g}", body)
        body = re.sub(r"(?m)^(%s (?:\S+)) κs =" % re.escape(g), r"\1 =", body)
    body = re.sub(r"(?m)^use \S+\.Statement\.\{statement\}\n", "", body)
    body = re.sub(r"(?m)^use (\S+)\.Tie as tie$", r"use \1.Goals as goal", body)
    body = re.sub(r"(?m)^use borrow\.Author\.Needs.*\n", "", body)
    segs = segments(body)
    body = in_source_spelling(body, os.path.join(os.path.dirname(path).split("/proofs")[0], "..", ".."), crate, fn, names)
    # clauses by name
    callee = {}
    for p in names["places"]:
        if p[3] and p[2][1]:
            callee[p[2][1]] = p[3].split("::")

    own = known.get(crate, {}).get(fn.split(".")[-1], {})

    def of_step(step, kind):
        if step is None:
            return own.get(kind)
        c = callee.get(step)
        return known.get(c[0], {}).get(c[-1], {}).get(kind) if c else None

    def by_clause(m):
        step, kind, digits = m[1], m[2], m[3].strip(".").split(".")
        of = of_step(step if step not in ("c", "before") and not step.startswith("at") or step in callee else None, kind) if kind == "ensures" or step in callee else own.get("requires")
        new = nested(of, digits) if of else None
        return f"{step}.{kind}." + ".".join(new) if new else m[0]

    body = re.sub(r"(?<![\w'-])(%s)\.(ensures|requires)((?:\.\d)+)(?![\w-])" % W, by_clause, body)
    # the same through a name that a let gives them
    for m in list(re.finditer(r"let (%s) = (?:%s\.)*?(%s)\.(ensures|requires) in" % (W, W, W), body)):
        of = own.get("requires") if m[3] == "requires" and m[2] not in callee else of_step(m[2], m[3])
        if of:
            def alias(k, of=of):
                new = nested(of, k[2].strip(".").split("."))
                return k[1] + "." + ".".join(new) if new else k[0]
            body = re.sub(r"(?<![\w.'-])(%s)((?:\.\d)+)(?![\w-])" % re.escape(m[1]), alias, body)

    def as_record(goal, rhs):
        of = None
        if goal.startswith("returns"):
            of = own.get("ensures")
        elif goal.endswith("-requires") or re.search(r"-requires-\d+$", goal):
            stem = re.sub(r"-requires(-\d+)?$", "", goal)
            c = callee.get(stem) or callee.get(stem + (re.search(r"-\d+$", goal) or [""])[0])
            of = known.get(c[0], {}).get(c[-1], {}).get("requires") if c else None
        lead = re.match(r"(?s)(.*\bin\s+)(\(.*\))\s*$", rhs)
        if lead and tuple_parts(lead[2]):
            inner = as_record(goal, lead[2])
            return lead[1] + inner if inner != lead[2] else rhs
        parts = tuple_parts(rhs)
        if of and parts:
            while len(parts) < len(of) and tuple_parts(parts[-1]):
                parts = parts[:-1] + tuple_parts(parts[-1])
            if len(parts) < len(of):
                return rhs
            if len(parts) > len(of):
                parts = parts[: len(of) - 1] + ["(" + ", ".join(parts[len(of) - 1:]) + ")"]
            return "record { " + "; ".join(f"{n} = {p}" for n, p in zip(of, parts)) + " }"
        return rhs

    segs = segments(body)
    segs = [s if head(s)[0] != "eq" or head(s)[1] not in goals else re.sub(r"(?s)^((?:--[^\n]*\n)*\S+(?: \S+)* =)(.*)$", lambda m: m[1] + " " + as_record(head(s)[1], m[2]).strip() + "\n" if as_record(head(s)[1], m[2]) != m[2] else m[0], s) for s in segs]
    # drop trivial answers
    out, i = [], 0
    uses = [s for s in segs if head(s)[0] == "use"]
    segs = [s for s in segs if head(s)[0] != "use"]
    comment = ""
    invs = []
    while i < len(segs):
        k, n = head(segs[i])
        if k == "sig" and n in goals:
            j = i + 1
            group = [segs[i]]
            while j < len(segs) and (head(segs[j])[0] == "unfolding" or head(segs[j]) == ("eq", n)):
                group.append(segs[j]); j += 1
            eqs = [g for g in group if head(g)[0] == "eq"]
            m = re.match(r"(?s)\s*%s \S+ =\s*(.*?)\s*$" % re.escape(n), eqs[0]) if len(eqs) == 1 else None
            if m and re.sub(r"\s+", " ", m[1]) in TRIVIAL and not any(head(g)[0] == "unfolding" for g in group):
                i = j
                continue
            out += group
            i = j
            continue
        out.append(segs[i])
        i += 1
    # invariants
    segs = out
    groups = []  # (name, [segs])
    for s in segs:
        k, n = head(s)
        if groups and (k == "unfolding" or (k == "eq" and n == groups[-1][0])):
            groups[-1][1].append(s)
        else:
            groups.append((n, [s]))
    invnames = {}
    for old in sigs:
        kind = sigs[old]
        pre = "invariant-" if kind.startswith("invariant-") else "decreases-"
        ln = loopname.get(norm(kind[len(pre):]))
        invnames[old] = (pre + ln) if ln else None
    keep, need_inv = [], []
    for n, g in groups:
        if n in sigs:
            need_inv.append((n, g))
        else:
            keep.append((n, g))
    inv_text = ""
    if need_inv:
        # helpers that the invariants use, transitively
        texts = {n: "\n".join(g) for n, g in keep if n}
        want, todo = [], ["\n".join(g) for _, g in need_inv]
        while todo:
            t = todo.pop()
            toks = set(TOKEN.findall(t))
            for n in texts:
                if n in toks and n not in want and n not in goals:
                    want.append(n); todo.append(texts[n])
        helpers = [(n, g) for n, g in keep if n in want]
        keep = [(n, g) for n, g in keep if n not in want]
        if want:
            for n, g in helpers:
                g[0] = re.sub(r"(?m)^(?!--)(?:abbrev )?(?:pub )?(?=(?:record |data |unfoldable )?%s)" % re.escape(n), lambda m: ("abbrev " if "abbrev" in m[0] else "") + "pub ", g[0], count=1)
        parts = ["\n".join(g) for _, g in helpers]
        for n, g in need_inv:
            new = invnames[n]
            li = next(i for i, l in enumerate(loops) if "loop" in new and new.endswith("-" + l[0][1]) or new == "invariant-" + l[0][1] or new == "decreases-" + l[0][1])
            variables, changed = loops[li][1], names["changed"][li]
            eq = "\n".join(x for x in g if head(x)[0] != "sig")
            sigcom = "\n".join(l for l in g[0].split("\n") if l.startswith("--"))
            m = re.match(r"(?s)((?:unfolding[^\n]*\n)*)\s*%s((?: [^\s=]+)*) =(.*)$" % re.escape(n), eq.lstrip("\n"))
            if not m:
                said.append(f"invariant {n} by hand")
                parts.append("\n".join(g)); continue
            given = m[2].split()
            want_names = [("initial." if ch else "") + v for v, ch in zip(variables, changed)] + [v for v, ch in zip(variables, changed) if ch]
            if len(given) != len(want_names):
                said.append(f"invariant {n}: {len(given)} arguments {given}, {len(want_names)} wanted {want_names}")
            sub = {a: "l." + w for a, w in zip(given, want_names) if a != "_"}

            def put(mm):
                return sub.get(mm[0], mm[0]) if (mm.start() == 0 or mm.string[mm.start() - 1] != ".") else mm[0]

            rhs = TOKEN.sub(put, m[3])
            parts.append((sigcom + "\n" if sigcom else "") + f"abbrev pub {new} : goal.{new}\n{m[1]}{new} l ={rhs}")
        given_uses = [re.sub(r"\.Goals as goal$", ".Given as goal", u) for u in uses]
        inv_text = "\n".join(given_uses) + "\n\n" + "\n".join(parts).strip("\n") + "\n"
        if want:
            uses.append(f"use Rattle.{crate}.proofs.{fn}.Invariants.{{{', '.join(want)}}}")
    rest_text = "\n".join("\n".join(g) for _, g in keep).strip("\n")
    ans = "\n".join(uses) + "\n\n" + rest_text + "\n" if re.search(r"(?m)^pub ", rest_text) else ""
    folder = os.path.dirname(path)
    if inv_text:
        open(os.path.join(folder, "Invariants.antt"), "w", encoding="utf-8").write(inv_text)
    if ans:
        open(os.path.join(folder, "Answers.antt"), "w", encoding="utf-8").write(ans)
    os.remove(path)
    return "; ".join(said)


def renamed_steps(text, names, own=()):
    """The text with each step of a place by its new name: c.before.if2.true is c.before.if-x.true."""
    steps, arms = {}, {}
    of = {p[0]: p for p in names["places"]}
    for p in reversed(names["places"]):
        if p[2][0]:
            steps[norm(p[2][0])] = p[2][1]
            up = of.get(p[1])
            if up and up[2][0] == "match" and p[3] is None:
                arms[norm(p[2][0])] = up[2][1]
    roots = {"c"} | set(re.findall(r"let (%s) = c(?:\.before)* in" % W, text)) | set(re.findall(r"\((%s) : (?:tie|goal)\." % W, text))
    while True:
        more = set(re.findall(r"let (%s) = (?:%s)(?:\.before)* in" % (W, "|".join(map(re.escape, roots))), text)) - roots
        if not more:
            break
        roots |= more
    chain = re.compile(r"(?<![\w.'-])(%s)((?:\.%s)+)" % ("|".join(map(re.escape, roots)), W))

    def put(m):
        f = m[2].split(".")[1:]
        k = 0
        while k < len(f) and f[k] == "before":
            k += 1
        if k < len(f):
            if f[k] == "requires" and own and k + 1 < len(f) and f[k + 1].isdigit() and int(f[k + 1]) < len(own):
                f[k + 1] = own[int(f[k + 1])]
            if f[k] == "well-formed":
                f[k] = "well_formed"
            elif f[k] not in ("args", "requires", "ranges", "new") or norm(f[k]) in steps and f[k] != "args":
                n = norm(f[k])
                if n in arms and f[k + 1:k + 3] == ["given", "1"]:
                    return m[1] + "." + ".".join([arms[n], "is"] + f[k + 3:])
                f[k] = steps.get(n, f[k])
        return m[1] + "." + ".".join(f)

    return "\n".join(l if l.startswith("use ") else chain.sub(put, l) for l in text.split("\n"))


def source_words(root, crate, fn):
    """The names with an underscore in the function's own text: parameters and variables."""
    last = fn.split(".")[-1]
    for d, ds, fs in os.walk(os.path.join(root, "crates", crate, "src")):
        for f in fs:
            text = open(os.path.join(d, f), encoding="utf-8").read()
            for m in re.finditer(r"(?m)^[ \t]*(?:pub(?:\([a-z]+\))? )?(?:extern \"C\" )?fn %s\b" % re.escape(last), text):
                end = re.compile(r"(?m)^[ \t]*\}$").search(text, m.end())
                yield from set(re.findall(r"\b[a-z]\w*_\w+\b", text[m.start(): end.end() if end else len(text)]))


def in_source_spelling(text, root, crate, fn, names):
    """Fields that are named after the source, by their own spelling; .auto of a call by the parameter's name; .pre and .good by today's."""
    words = set(source_words(root, crate, fn))
    for ps in names["params"].values():
        words |= {p for p in ps if "_" in p}
    for w in words:
        k = w.replace("_", "-")
        text = re.sub(r"(?<=[\w)'])\.%s(?![\w'-])" % re.escape(k), "." + w, text)
    callee = {p[2][1]: p[3] for p in names["places"] if p[3] and p[2][1]}

    def auto(m):
        ps = names["params"].get(callee.get(m[1], ""), [])
        k = m[2].count("1")
        return f"{m[1]}.auto.{ps[k]}" if k < len(ps) else m[0]

    text = re.sub(r"(?<![\w'-])(%s)\.(?:auto|kept)((?:\.1)*)\.0(?![\w])" % W, auto, text)
    text = re.sub(r"(?<=[\w)])\.pre(?![\w'-])", ".requires", text)
    return re.sub(r"(?<=[\w)])\.good(?![\w'-])", ".well_formed", text)


def convert_tie(path, text, names, crate, fn, known):
    """Keeps the Proof.antt, under the new names."""
    at, args = find_spec(text)
    needs, loops = names["needs"], names["loops"]
    sigs = dict(re.findall(r"(?m)^(?:(?:abbrev|pub|unfoldable)\s+)*(%s) : tie\.((?:invariant|decreases|measure)\S*)" % W, text))
    k = 0
    while k < len(args) and args[k] in sigs:
        k += 1
    rest = args[k:]
    said = "" if len(rest) == len(needs) else f"{len(rest)} answers, {len(needs)} goals"
    byname = {}
    for o, n in needs:
        for s in (o, n):
            byname.setdefault(norm(s), n)
            byname.setdefault(norm("overflow-" + s), n)
    local = {m[1]: m[2] for m in re.finditer(r"(?m)^(?:(?:abbrev|pub|unfoldable)\s+)*(%s) : tie\.Need-(\S+)" % W, text)}
    need = {}
    for a, g in local.items():
        need[g] = needs[rest.index(a)][1] if a in rest and len(rest) == len(needs) else byname.get(norm(g), g)
    places = {norm(p[0]): n for p, n in zip(names["places"], names["places_by_name"])}
    steps = {norm(p[2][0]): p[2][1] for p in reversed(names["places"]) if p[2][0]}
    loopname = {norm(l[0][0]): l[0][1] for l in loops}

    def tie(m):
        w = m[1]
        if w.startswith("Need-"):
            return "tie.Need-" + need.get(w[5:], byname.get(norm(w[5:]), w[5:]))
        for kind in ("invariant-", "decreases-"):
            if w.startswith(kind):
                return "tie." + kind + loopname.get(norm(w[len(kind):]), w[len(kind):])
        return "tie." + places.get(norm(w), w)

    def field(m):
        w = m[1]
        if w == "well-formed":
            return ".well_formed"
        if w in ("true", "false", "before", "args", "ensures", "result", "new", "old", "now"):
            return m[0]
        s = steps.get(norm(w))
        return "." + s if s else m[0]

    body = re.sub(r"tie\.(%s)" % W, tie, text[:at])
    body = renamed_steps(body, names, known.get(crate, {}).get(fn.split(".")[-1], {}).get("requires"))
    tail = text[at:]
    root = os.path.join(os.path.dirname(path).split("/proofs")[0], "..", "..")
    body = in_source_spelling(body, root, crate, fn, names)
    tail = renamed_steps(in_source_spelling(tail, root, crate, fn, names), names)
    old = re.search(r"pub (%s) :" % W, tail)[1]
    tail = re.sub(r"(?<![\w'-])%s(?![\w'-])" % re.escape(old), fn.split(".")[-1] + "_spec", tail)
    open(path, "w", encoding="utf-8").write(body + tail)
    return said


def main(argv):
    folder, names = argv[0], json.load(open(argv[1], encoding="utf-8"))
    crate = os.path.basename(os.path.abspath(folder))
    known = clauses(os.path.join(folder, "..", ".."))
    only = set(argv[2:])
    for d, ds, fs in os.walk(os.path.join(folder, "proofs")):
        if "Proof.antt" in fs:
            fn = os.path.relpath(d, os.path.join(folder, "proofs")).replace("/", ".")
            if only and fn not in only:
                continue
            key = f"Rattle-{crate}-proofs.{fn}.Lts"
            if key not in names:
                print(f"{fn}: no names"); continue
            try:
                said = convert(os.path.join(d, "Proof.antt"), names[key], crate, fn, known)
            except Exception as e:
                said = f"failed: {type(e).__name__} {e}"
            if said:
                print(f"{fn}: {said}")


if __name__ == "__main__":
    main(sys.argv[1:])
