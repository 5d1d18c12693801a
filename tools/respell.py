#!/usr/bin/env python3
"""Brings the repository's own definitions and lemmas to today's spelling: words in snake case, joined by `_`.

usage: tools/respell.py [--check]      at the top of the repository, once, right after the kit's port.py

A name is one that a file of specs/ or proofs/ declares: a definition, a lemma, a field, a constructor, or what an import
calls another thing (`a as b`). `milliOf` becomes `milli_of`, `no-nearer` becomes `no_nearer`. Types, modules and names that
begin with a capital keep theirs, and so does what the toolchain or one of its libraries named: in a file that imports a name
from there the name stays. What a proof that walks the code (Proof.antt) answers is named by the toolchain and stays too.
Functions of src/, strings, inputs and outputs are not touched. In the pages of docs/ and README.md and in comments a name
turns where it stands in code marks; in comments also where it can be no plain word.

--check writes nothing and prints the names, and those that fall together.
"""

import collections
import glob
import os
import re
import sys

CHECK = "--check" in sys.argv[1:]
TOKEN = re.compile(r'[^\s(){}\[\].;,:`@"«»]+')
WORDS = r"(?:pub |abbrev |unfoldable |mutual |private |abstract |instance |opaque )*"
DECLARED = re.compile(rf'(?m)^( *)({WORDS})([^\s(){{}}.;,@"«»]+)(?= *(?:\{{[^}}]*\}} *|\([^)]*\) *)*:(?: |$))(?! *(?:\{{[^}}]*\}} *|\([^)]*\) *)*: tie\.)')
IMPORT = re.compile(r"(?m)^(?:pub )?(?:ghost )?use ([^\s{;]+?)(?:\.\{([^}]*)\})?(?: as (\S+?))?;?$")
QUIET = re.compile(r'"(?:[^"\\\n]|\\.)*"')
CAMEL = re.compile(r"^[a-z][A-Za-z0-9]*[A-Z]|^[a-z_0-9]+[A-Z]")
# Lemmas that would have the name of what they speak of: those have `_lem` behind, as in the library.
CHOSEN = {"is-nan": "is_nan_lem", "word-at": "word_at_lem", "in-turn": "in_turn_lem"}
# The same in single files, where the old name has a spelling of today already.
IN_FILES = {
    "crates/sample/proofs/Scattering.antt": {"kept_by": "kept_by_lem"},
    "crates/sample/proofs/scatter/Proof.antt": {"kept_by": "kept_by_lem"},
    "crates/pass/proofs/Collected.antt": {"kept_by": "kept_by_lem"},
    "crates/pass/proofs/Reasons.antt": {"kept_by": "kept_by_lem"},
    "crates/vuzgari/proofs/Codes.antt": {"width_code": "width_code_lem"},
}


def old_word(name):
    if not name or not (name[0].islower() or name[0].isdigit()):
        return False
    return bool(re.search(r"[\w'²³₀-₉]-[\w²³₀-₉]", name)) or bool(CAMEL.match(name))


def snake(name):
    if name in CHOSEN:
        return CHOSEN[name]
    name = name.replace("-", "_")
    name = re.sub(r"([a-z0-9²³₀-₉'])([A-Z])", lambda m: m.group(1) + "_" + m.group(2).lower(), name)
    return re.sub(r"(?<![A-Z])_([A-Z])(?![A-Z])", lambda m: "_" + m.group(1).lower(), name)


def read(path):
    with open(path, encoding="utf-8") as f:
        return f.read()


def items(text):
    """(path, name, alias) of each name that a `use` line brings."""
    for m in re.finditer(r"(?:pub )?(?:ghost )?use ([^\s{;]+?)\.\{([^}]*)\}", text):
        for it in m.group(2).split(","):
            words = it.split()
            if len(words) == 1:
                yield m.group(1), words[0], None
            elif len(words) == 3 and words[1] == "as":
                yield m.group(1), words[0], words[2]


root = os.getcwd()
own = sorted(os.path.basename(os.path.dirname(p)) for p in glob.glob("crates/*/src"))
antt = sorted(p for c in own for d in ("specs", "proofs") for p in glob.glob(f"crates/{c}/{d}/**/*.antt", recursive=True))
rt = sorted(p for c in own for p in glob.glob(f"crates/{c}/src/**/*.rt", recursive=True))
edits = sorted(p for c in own for p in glob.glob(f"crates/{c}/must-fail/*.edit"))
pages = ["README.md"] + sorted(glob.glob("docs/*.md"))


def is_own(path):
    parts = path.split(".")
    return parts[0] == "Rattle" and len(parts) > 1 and parts[1] in own


names, fields = set(), set()
for p in antt + rt:
    text = read(p)
    if p.endswith(".antt"):
        code = "\n".join(re.sub(r"(?:^|(?<=\s))--(?:\s.*|)$", "", l) for l in QUIET.sub('""', text).split("\n"))
        for m in DECLARED.finditer(code):
            if old_word(m.group(3)):
                names.add(m.group(3))
                if m.group(1):
                    fields.add(m.group(3))
    for _, _, alias in items(text):
        if alias and old_word(alias):
            names.add(alias)

table = {n: snake(n) for n in names}
together = collections.defaultdict(set)
for o, n in table.items():
    together[n].add(o)
for n, olds in together.items():
    if len(olds) > 1:
        for o in olds:
            if "-" in o:
                table[o] = n + "_lem"
# Goals of the toolchain's making, which a proof file may declare by the same words.
for n in list(table):
    if re.match(r"(Need|After|Then|Else|Joined|Loop)", n):
        del table[n]


def kits(text):
    """The names that a file imports from the toolchain and its libraries."""
    return {alias or name for path, name, alias in items(text) if not is_own(path)}


def turn_code(code, stay):
    out, last = [], 0
    for m in TOKEN.finditer(code):
        t = m.group()
        new = here.get(t) or table.get(t)
        if not new or t in stay:
            continue
        behind = code[m.start() - 1 : m.start()] == "." and code[m.start() - 2 : m.start() - 1].strip(" ({,;") != ""
        if behind and t not in fields and not re.search(r"\b[a-z]\w*\.$|[A-Z]\w*\.$", code[: m.start()]):
            continue
        out += [code[last : m.start()], new]
        last = m.end()
    return "".join(out) + code[last:]


def turn_prose(text, stay, marked_only):
    def span(m):
        return "`" + turn_code(m.group(1), stay) + "`"

    text = re.sub(r"`([^`\n]*)`", span, text)
    if marked_only:
        return text
    return re.sub(r"(?<![\w`.'-])[a-z][a-z0-9]*[A-Z]\w*(?![\w`'-])", lambda m: table.get(m.group(), m.group()) if m.group() not in stay else m.group(), text)


def turn(text, mark, stay):
    lines = []
    for line in text.split("\n"):
        at = re.search(rf"(?:^|(?<=\s)){re.escape(mark)}(?=\s|$|!|/)", QUIET.sub(lambda m: "\0" * len(m.group()), line))
        head, tail = (line[: at.start()], line[at.start() :]) if at else (line, "")
        parts, last = [], 0
        for q in QUIET.finditer(head):
            parts += [turn_code(head[last : q.start()], stay), q.group()]
            last = q.end()
        parts.append(turn_code(head[last:], stay))
        lines.append("".join(parts) + turn_prose(tail, stay, False))
    return "\n".join(lines)


clashes = collections.defaultdict(set)
changed = 0
here = {}
for p in antt + rt + edits + pages:
    text = read(p)
    here = IN_FILES.get(p, {})
    if p.endswith(".md"):
        new = turn_prose(text, set(), True)
    elif p.endswith(".edit"):
        crate = os.path.dirname(os.path.dirname(p))
        target = re.search(r"(?m)^file: (\S+)", text).group(1)
        t = os.path.join(crate, target)
        stay = kits(read(t)) if os.path.exists(t) else set()
        mark = "//" if target.endswith(".rt") else "--"
        new = "\n".join(l[:5] + turn(l[5:], mark, stay) if l.startswith(("old: ", "new: ")) else l for l in text.split("\n"))
    else:
        stay = kits(text)
        mark = "//" if p.endswith(".rt") else "--"
        tokens = set(TOKEN.findall(text))
        for t in tokens:
            if t in table and t not in stay and table[t] in tokens:
                clashes[p].add((t, table[t]))
        new = turn(text, mark, stay)
    if new != text:
        changed += 1
        if not CHECK:
            with open(p, "w", encoding="utf-8") as f:
                f.write(new)

by_new = collections.defaultdict(set)
for o, n in table.items():
    by_new[n].add(o)
for n, olds in sorted(by_new.items()):
    if len(olds) > 1:
        print("together:", n, sorted(olds))
for p, cs in sorted(clashes.items()):
    for c in sorted(cs):
        print("clash:", p, *c)
if CHECK:
    for o in sorted(table):
        print("name:", o, table[o])
print(f"respell: {len(table)} names, {changed} files")
