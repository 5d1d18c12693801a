#!/usr/bin/env python3
"""Places of docs/DESIGN-PASS.md: candidates for each of its points in crates/*/src, found by form alone.

    python3 tools/places.py [POINT..] [--count] [--root FOLDER]

prints each candidate as POINT CRATE/FILE: what; with --count the sums alone. A reader decides which of them are places.
"""
import collections
import glob
import os
import re
import sys

args = sys.argv[1:]
root = args[args.index("--root") + 1] if "--root" in args else "."
count_only = "--count" in args
points = [a for a in args if re.fullmatch(r"[1-8]", a)] or list("12345678")
found = collections.defaultdict(list)
KEYWORDS = {"if", "else", "while", "for", "in", "let", "mut", "return", "match", "as"}
# what C calls: their exported functions keep numbers and pointers with lengths
C_CALLS = {"vuzgari", "vuzgari_c", "compare", "compare_c"}


def sources():
    for path in sorted(glob.glob(os.path.join(root, "crates/*/src/*.rt"))):
        crate = path.split(os.sep)[-3]
        yield crate, crate + "/" + os.path.basename(path), open(path).read()


def functions(text):
    """name, parameters, clauses and body of each function"""
    plain = re.sub(r"//[^\n]*", "", text)
    for m in re.finditer(r"\bfn (\w+)", plain):
        at = plain.index("(", m.end())
        depth, i = 0, at
        while True:
            depth += {"(": 1, ")": -1}.get(plain[i], 0)
            i += 1
            if depth == 0:
                break
        params = plain[at + 1 : i - 1]
        # clauses stand in braces after requires or ensures; the body is the brace after them
        rest = i
        head = ""
        body = ""
        while rest < len(plain):
            c = plain[rest]
            if c == "[":
                rest = plain.index("]", rest)
            if c == ";":
                break
            if c == "{":
                depth, j = 0, rest
                while True:
                    depth += {"{": 1, "}": -1}.get(plain[j], 0)
                    j += 1
                    if depth == 0:
                        break
                before = plain[i:rest]
                if re.search(r"(requires|ensures)\*?\s*\w*\s*$", before):
                    head += plain[i:j]
                    i = rest = j
                    continue
                head += before
                body = plain[rest:j]
                break
            rest += 1
        yield m.group(1), params, head, body


def parts(fact):
    """a fact's conjuncts at its top level"""
    out, depth, last = [], 0, 0
    for k, c in enumerate(fact):
        depth += (c in "([{") - (c in ")]}")
        if depth == 0 and c == "×":
            out.append(fact[last:k])
            last = k + 1
    out.append(fact[last:])
    return [re.sub(r"\s+", " ", p).strip() for p in out]


def bare(p):
    while p.startswith("(") and p.endswith(")"):
        depth = 0
        for k, c in enumerate(p):
            depth += (c == "(") - (c == ")")
            if depth == 0 and k < len(p) - 1:
                return p
        p = p[1:-1].strip()
    return p


shapes = collections.defaultdict(list)
facts = collections.defaultdict(set)
groups = collections.defaultdict(set)
for crate, where, text in sources():
    plain = re.sub(r"//[^\n]*", "", text)
    for m in re.finditer(r"enum (\w+)(?:<[^>]*>)? \{([^}]*)\}", plain):
        if "(" in m.group(2):
            found["1"].append((where, "enum " + m.group(1)))
    for m in re.finditer(r"^\s*pub (number|refused|last|found): |^\s+(last|refused): bool", plain, re.M):
        found["1"].append((where, "field " + m.group(0).strip()))
    if re.search(r"18446744073709551615|usize::MAX", plain):
        found["1"].append((where, "a number for none"))
    for name, params, head, body in functions(text):
        if not body:
            continue
        if crate not in C_CALLS:
            if re.search(r"-> u(8|32)\b", head) and re.search(r"(return \d+;|=> \d+,|\n    \d+\n\}|\{ \d+ \})", body):
                found["1"].append((where, "fn %s answers a number" % name))
            if re.search(r"\b(number|kind|letter|cause|n): u(8|32)\b", params):
                found["1"].append((where, "fn %s takes a number" % name))
        words = re.findall(r"[A-Za-z_]\w*|\d[\w.]*|b'.'|\"[^\"]*\"|\S", body)
        if len(words) > 8:
            seen = {}
            shape = []
            for w in words:
                if re.match(r"[A-Za-z_]\w*$", w) and w not in KEYWORDS:
                    w = seen.setdefault(w, "v%d" % len(seen))
                elif re.match(r"\d|b'|\"", w):
                    w = "N"
                shape.append(w)
            shapes[" ".join(shape)].append((crate, where, name))
        for m in re.finditer(r"\bwhile (?!let)([^{]*)\{", body):
            found["3"].append((where, "fn %s: while %s" % (name, m.group(1).strip())))
        for what, form in (
            ("a cast alone", r"^\{\s*\w+ as \w+\s*\}$"),
            ("the larger or smaller of two", r"if (\w+) < (\w+) \{ (\1|\2) \} else \{ (\1|\2) \}"),
            ("the smaller with a constant", r"if \w+ < \d+ \{\s*return \w+;\s*\}\s*\d+"),
            ("a digit or decimal by hand", r"io::decimal|48 \+|55 \+"),
            ("a test of equals, one by one", r"(if \w+ == [^{]*\{\s*return true;\s*\}\s*){2}"),
        ):
            if re.search(form, body):
                found["4"].append((where, "fn %s: %s" % (name, what)))
        for m in re.finditer(r"requires\s*\w*\s*\{((?:[^{}]|\{[^{}]*\})*)\}", head):
            for p in parts(m.group(1)):
                facts[(crate, bare(p))].add((where, name))
        if crate not in C_CALLS:
            names = [re.sub(r"\s+", " ", p.strip()) for p in re.sub(r"<[^>]*>", "", params).split(",") if ":" in p]
            names = [p for p in names if not p.startswith("rt:")]
            for i in range(len(names)):
                for j in range(i + 1, len(names)):
                    groups[(crate, names[i], names[j])].add((where, name))
            lent = [p for p in names if re.search(r"\[\w+(; \d+)?\]", p)]
            if any(re.match(r"(n|count|at|to|t|len|columns|starts): (usize|u8)$", p) for p in names) and lent:
                found["6"].append((where, "fn %s(%s)" % (name, ", ".join(names))))
        tests = re.findall(r"(?:if|else if) (\w+) == b?'?[^{]*\{", body)
        arms = re.findall(r"^\s+\d+ => ", body, re.M)
        most = max([tests.count(t) for t in tests] + [0])
        if most >= 3 or len(arms) >= 3:
            found["7"].append((where, "fn %s: %d steps" % (name, max(most, len(arms)))))
        if len(re.findall(r"stored::report\(", body)) >= 3:
            found["7"].append((where, "fn %s: a table of calls" % name))
for shape, who in shapes.items():
    # calls that C makes have the signatures that C needs
    who = [w for w in who if not w[2].startswith("vuzgari_")]
    if len(who) > 1:
        found["2"].append(("%d alike" % len(who), ", ".join("%s %s" % (w, n) for _, w, n in who)))
for (crate, fact), who in facts.items():
    if len(who) >= 3:
        found["5"].append((crate, "in %d functions: %s" % (len(who), fact)))
pairs = collections.defaultdict(set)
for (crate, a, b), who in groups.items():
    if len(who) >= 3:
        pairs[(crate, frozenset(who))] |= {a, b}
for (crate, who), names in pairs.items():
    found["5"].append((crate, "together in %d functions: %s" % (len(who), ", ".join(sorted(names)))))
for path in sorted(glob.glob(os.path.join(root, "crates/*/proofs/**/Answers.antt"), recursive=True)):
    crate = path[len(root) :].lstrip("/").split("/")[1]
    where = "/".join(path.split("/proofs/")[1].split("/")[:-1])
    found["8"].append((crate, "%s, %d answers" % (where, len(re.findall(r"^pub ", open(path).read(), re.M)))))

for p in points:
    print("point %s: %d" % (p, len(found[p])))
    if not count_only:
        for where, what in found[p]:
            print("  %s %s: %s" % (p, where, what))
