#!/usr/bin/env python3
"""Respells the repository's own definitions and lemmas as today's Rattle does: words in snake case, types in camel case.

    python3 tools/respell.py [FOLDER]        (run once, after port.py, at the top of a checkout)

It gathers the names that crates/*/specs and crates/*/proofs define (top-level names, record fields, names bound in a
lemma), and turns them wherever they are named: in specs and proofs, and in the ghost text of src/. What Rattle names
itself (steps, goals) keeps its dashes, and so do the names of Rattle's library. It stops where two names would fall
together.
"""
import collections
import glob
import os
import re
import sys

os.chdir(sys.argv[1] if len(sys.argv) > 1 else ".")
WORD = r"[A-Za-z][A-Za-z0-9_'\-≢≡≤ℕ]*"
ANSWERS = ("Answers.antt", "Invariants.antt", "Proof.antt", "Choices.antt")
crates = {path.split("/")[1] for path in glob.glob("crates/*/")}
antt = sorted(glob.glob("crates/*/specs/**/*.antt", recursive=True) + glob.glob("crates/*/proofs/**/*.antt", recursive=True))
source = sorted(glob.glob("crates/*/src/**/*.rt", recursive=True))


def read(path):
    with open(path, encoding="utf-8") as f:
        return f.read()


def turned(name):
    """The name as it is to be spelled."""
    name = re.sub(r"^getD\b", "get_or", name)
    if name[0].isupper():
        return "".join(part[:1].upper() + part[1:] for part in re.split(r"[-_]", name))
    return name.replace("-", "_")


def made(text):
    """The names that a file of Rattle's library or of a proof's goals gives to this one."""
    names = set()
    for module, items in re.findall(r"^\s*(?:ghost )?use (\S+)\.\{([^}]*)\}", text, re.M):
        own = module.startswith("Rattle.") and module.split(".")[1] in crates
        if not own or re.search(r"\.(?:Goals|Given)$", module):
            names.update(item.split(" as ")[0].strip() for item in items.split(","))
    return names


def aliases(text):
    """The names that a file gives to what it imports."""
    return {item.split(" as ")[1].strip() for items in re.findall(r"\buse \S+\.\{([^}]*)\}", text) for item in items.split(",") if " as " in item}


# 1. The names that the repository defines.
owners = collections.defaultdict(set)
for path in antt:
    text = read(path)
    answers = os.path.basename(path) in ANSWERS
    goals = set(re.findall(r"^(?:abbrev )?(?:pub )?(" + WORD + r")\s*:\s*goal\.", text, re.M))
    for m in re.finditer(r"^\s*(?:(?:abbrev|unfoldable|pub|record|ruleset)\s+)*(" + WORD + r")\s*(?::(?!=)|(?=[({]))", text, re.M):
        name = m[1]
        if name in ("module", "use", "let", "in") or name in goals or (answers and name.startswith(("invariant-loop", "decreases-"))):
            continue
        owners[name].add(path)
    # names bound inside: let, λ and telescopes
    for m in re.finditer(r"(?:\blet\s+|λ\s*|[({])(" + WORD + r")(?=\s*[:=.]| )", text):
        if "-" in m[1] and re.search(r"(?:\blet\s+" + re.escape(m[1]) + r"\s*[:=]|[({](?:" + WORD + r"\s+)*" + re.escape(m[1]) + r"(?:\s+" + WORD + r")*\s*:)", text):
            owners[m[1]].add(path)

for path in antt + source:
    for name in aliases(read(path)):
        owners[name].add(path)

external = set()
for path in antt:
    external |= made(read(path))
names = {n: turned(n) for n in owners if turned(n) != n and n not in external}

# 2. No two names of a crate may fall together.
fallen = collections.defaultdict(set)
for name, paths in owners.items():
    for path in paths:
        fallen[path.split("/")[1], names.get(name, name)].add(name)
bad = {new: olds for new, olds in fallen.items() if len(olds) > 1}
clash = {new for new in names.values() if new in external}
for new, olds in sorted(bad.items()):
    print(f"fall together as {new[1]} in {new[0]}: {', '.join(sorted(olds))}")
if clash:
    print(f"the library has: {', '.join(sorted(clash))}")
if bad or clash:
    sys.exit(1)

# 3. They are turned wherever they are named.
token = re.compile(r"(?<![A-Za-z0-9_'\-≢≡≤ℕ])" + WORD)


def turn(text, path):
    answers = os.path.basename(path) in ANSWERS
    kept = made(text)

    def new(m):
        word, before = m[0], text[max(0, m.start() - 20) : m.start()]
        bare = word.rstrip("'")
        comment = "--" in text[text.rfind("\n", 0, m.start()) + 1 : m.start()]
        if word in kept or bare not in names and (answers or comment or "-" not in word):
            return word
        if answers and re.search(r"(?:^|[^\w.'])(?:c|w|g|l|l\.initial|l\.fn|goal|goal\.at)\.$", before):
            return word
        if answers and re.search(r"(?:^|\n)(?:abbrev )?(?:pub )?$", before) and re.search(r"(?m)^(?:abbrev )?(?:pub )?" + re.escape(word) + r"\s*:\s*goal\.", text):
            return word
        return turned(word)

    return token.sub(new, text)


for path in antt:
    old = read(path)
    text = turn(old, path)
    if text != old:
        with open(path, "w", encoding="utf-8") as f:
            f.write(text)

# In src/ only ghost text is turned: imports, clauses, ghost fields and ghost members.
ghost = re.compile(r"ghost use [^;]*;|\b(?:requires|ensures)\*?\s+(?:\w+\s+)?\{.*\}|\bghost\s+\w+(?::| =)\s*\{.*\}")
for path in source:
    old = read(path)
    text = "\n".join(ghost.sub(lambda m: turn(m[0], path), line) for line in old.split("\n"))
    if text != old:
        with open(path, "w", encoding="utf-8") as f:
            f.write(text)

print(f"{len(names)} names respelled")
