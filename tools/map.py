#!/usr/bin/env python3
"""Renews docs/MAP.md: its links, and the tables that are read off the code.

    python3 tools/map.py                   renews it; names that are not found are said, and the status is 1
    python3 tools/map.py --check           changes nothing, and fails where it would change something
    python3 tools/map.py --lines [COMMIT]  prints the lines of code, definitions and proofs by crate, as the files are
                                           here or at a commit

A link of the map has a name and a place, as [`majority`](../crates/numbers/src/majorities.rt#L6). The name is looked up
in that crate's src/, specs/ or proofs/, whichever the link has, then in those of the other crates, and the link gets
the file and the line where it is defined. Between lines `<!-- begin NAME -->` and `<!-- end -->` stands what this
script writes.
"""
import collections
import re
import subprocess
import sys
from pathlib import Path

TOP = Path(__file__).resolve().parent.parent
MAP = TOP / "docs/MAP.md"
NAME = r"[A-Za-zα-ωℕ][\w'′ℕ-]*"

Found = collections.namedtuple("Found", "name path line text")


def crates():
    """The crates in the order of crates.txt."""
    lines = (TOP / "crates.txt").read_text().split("\n")
    return [re.split(r"[ :]", line)[0] for line in lines if line and not line.startswith("#")]


# Definitions of .antt files

HEAD = re.compile(rf"^( *)(?:(?:abbrev|unfoldable|pub) )*(?:(?:record|data) ({NAME})|({NAME}) *:(?!=))")


def definitions(path):
    """What a file of specs/ or proofs/ defines, each with its text up to the next."""
    lines, found, modules = path.read_text().split("\n"), [], []
    for number, line in enumerate(lines, 1):
        indent = len(line) - len(line.lstrip())
        if line.strip() and not line.lstrip().startswith("--"):
            modules = [one for one in modules if one < indent]
        if re.match(r" *module _", line):
            modules.append(indent)
            continue
        head = HEAD.match(line)
        if head and indent in {0, *(one + 2 for one in modules)}:
            found.append((head[2] or head[3], number))
    ends = [number for _, number in found[1:]] + [len(lines) + 1]
    return [Found(name, path, number, "\n".join(lines[number - 1:end - 1])) for (name, number), end in zip(found, ends)]


# Items of .rt files

ITEM = re.compile(rf"^( *)(?:pub(?:\([a-z]+\))? )?(?:fn|struct|enum|trait|const|type) ({NAME})")
IMPL = re.compile(r"^impl(?:<[^{]*?>)? (?:(\S.*?) for )?([\w:]+)")


def items(path):
    """What a file of src/ defines; a method is named by its type or trait, as Site::make."""
    found, owner = [], None
    for number, line in enumerate(path.read_text().split("\n"), 1):
        if line.startswith("impl"):
            owner = IMPL.match(line)[2].split("::")[-1]
        elif re.match(r"(pub )?trait ", line):
            owner = re.search(r"trait (\w+)", line)[1]
            found.append(Found(owner, path, number, line))
            continue
        elif line.startswith("}"):
            owner = None
        item = ITEM.match(line)
        if item:
            name = f"{owner}::{item[2]}" if owner and item[1] else item[2]
            found.append(Found(name, path, number, line))
    return found


def defined(crate, folder):
    """All that a folder of a crate defines."""
    ending, read = ("rt", items) if folder == "src" else ("antt", definitions)
    return [one for path in sorted((TOP / "crates" / crate / folder).rglob(f"*.{ending}")) for one in read(path)]


# Links

LINK = re.compile(r"\[`([^`]+)`\]\(\.\./crates/(\w+)/(src|specs|proofs)/([^)#]*)(?:#L\d+)?\)")


def renewed(text):
    """The text with its links renewed, and what was not found."""
    lost, known = [], {}

    def look(crate, folder, name):
        if (crate, folder) not in known:
            known[crate, folder] = defined(crate, folder)
        return [one for one in known[crate, folder] if one.name == name]

    def link(match):
        name, crate, folder, was = match.groups()
        here = look(crate, folder, name)
        if not here:
            here = [one for other in crates() for one in look(other, folder, name)]
            here = here if len(here) == 1 else []
        # of two of one name in a crate the link keeps its file
        same = [one for one in here if one.path == TOP / "crates" / crate / folder / was] or here
        if not same:
            lost.append(f"{name}, in crates/{crate}/{folder}")
            return match[0]
        if len(same) > 1 and {one.path for one in same} != {same[0].path}:
            lost.append(f"{name} stands in {' and '.join(str(one.path.relative_to(TOP)) for one in same)}")
        return f"[`{name}`](../{same[0].path.relative_to(TOP)}#L{same[0].line})"

    return LINK.sub(link, text), lost


# What a clause rests on

USE = re.compile(r"(?:ghost )?use Rattle\.([\w.]+?)(?:\.\{([^}]*)\}| as (\w+))", re.S)


def imported(text):
    """Where the names that a file imports are defined: crate and module, and the name there."""
    names = {}
    for module, listed, _ in USE.findall(text):
        for item in filter(None, (one.strip() for one in listed.split(","))):
            there, _, here = item.partition(" as ")
            names[here or there] = (module, there)
    return names


def used(text, among):
    """The names of a text that are among these: no field, neither read nor written."""
    text = re.sub(r"--.*", "", text)
    text = re.sub(rf"([{{;]\s*){NAME}(\s*=(?!=))", r"\1\2", text)
    return [name for name in re.findall(rf"(?<![\w.′'-]){NAME}", text) if name in among]


# Names that are imported and defined nowhere.
lacking = set()


def rests_on(source, clause):
    """The definitions and types that a clause of a .rt file rests on, each once."""
    files = {path: definitions(path) for path in TOP.glob("crates/*/specs/**/*.antt")}
    seen, types = {}, set()

    def reach(module, name):
        parts = module.split(".")
        if parts[0] not in crates() or parts[1] != "specs":
            return
        if parts[2] == "declared":
            at = parts.index("TheVariants") if "TheVariants" in parts else len(parts)
            types.add((parts[0], "/".join(parts[3:at - 1]), parts[at - 1]))
            return
        path = TOP / "crates" / parts[0] / "specs" / ("/".join(parts[2:]) + ".antt")
        # a case stands in the text of its type
        case = re.compile(rf"^ +{re.escape(name)} *:(?!=)", re.M)
        found = [one for one in files.get(path, []) if one.name == name] or [one for one in files.get(path, []) if case.search(one.text)]
        if not found:
            lacking.add(f"{name}, in {path.relative_to(TOP)}")
        elif (path, found[0].name) not in seen:
            seen[path, found[0].name] = found[0]
            follow(path.read_text(), found[0].text, path)

    def follow(whole, text, path=None):
        names = imported(whole)
        for name in used(text, names):
            reach(*names[name])
        if path:
            own = {one.name for one in files[path]}
            module = ".".join(path.relative_to(TOP / "crates").with_suffix("").parts)
            for name in used(text, own):
                reach(module, name)

    follow(source.read_text(), clause)
    return seen, types


def lines_of(text):
    """Its lines but for comments, imports and empty ones."""
    kept = [line for line in text.split("\n") if line.strip() and not re.match(r"\s*(--|//|use |ghost use |pub mod )", line)]
    return len(kept)


def idea(path):
    return re.sub(r"^(--|//!) *", "", path.read_text().split("\n")[0]).replace(" Assumes nothing.", "")


def in_reading_order():
    """The files of specs/ in the order of crates.txt, and within a crate so that none uses a later one."""
    for crate in crates():
        left = [path for path in sorted((TOP / "crates" / crate / "specs").glob("*.antt")) if path.name != "Lib.antt"]
        while left:
            for path in left:
                uses = {module.split(".")[2] for module, _ in imported(path.read_text()).values() if module.startswith(f"{crate}.specs.") and "declared" not in module}
                if not uses & {other.stem for other in left if other != path}:
                    break
            left.remove(path)
            yield crate, path


def clause_of(crate, function, label=""):
    """The file of a function, and its clause of that label."""
    for path in sorted((TOP / "crates" / crate / "src").rglob("*.rt")):
        found = re.search(rf"\bfn {function}\b[^{{}}]*?(?:ensures \w+ \{{.*\}}\s*)*ensures ?{label} \{{(.*)\}}\n", path.read_text())
        if found:
            return path, found[1]
    sys.exit(f"tools/map.py: {function} of {crate} has no clause {label}")


def summed(needed):
    return f"{len(needed)} definitions, {sum(lines_of(one.text) for one in needed.values()):,} lines"


def reading():
    """The table of definitions to be believed."""
    needed, types = rests_on(*clause_of("runs", "run", "guarantee"))
    rows, every, long = [], 0, 0
    for crate, path in in_reading_order():
        found, at, size = definitions(path), path.relative_to(TOP), lines_of(path.read_text())
        if crate == "protocol":
            # a theorem of its own; only what the guarantee takes from it
            found = [one for one in found if (path, one.name) in needed]
            size = sum(lines_of(one.text) for one in found)
        if crate in ("desk", "site_c") or not found:
            continue
        told = lambda is_needed: ", ".join(f"`{one.name}` {one.line}" for one in found if ((path, one.name) in needed) == is_needed) or "–"
        rows.append(f"| [{crate}/{path.stem}](../{at}) | {idea(path)} | {size} | {told(True)} | {told(False)} |")
        every, long = every + len(found), long + size
    yield "| file | its idea | lines | the guarantee rests on | calls and theorems alone rest on |"
    yield "|---|---|---|---|---|"
    yield from rows
    yield ""
    yield f"The guarantee of `run` rests on {summed(needed)}; all contracts of the layers together on {every}, {long:,} lines."
    yield "Both rest on types of the code as well, as they are declared in `src/`. Those of the guarantee:"
    yield ""
    by_crate = collections.defaultdict(set)
    for crate, _, name in types:
        by_crate[crate].add(name)
    for crate in crates():
        if by_crate[crate]:
            yield f"- `{crate}`: {', '.join(f'`{name}`' for name in sorted(by_crate[crate]))}"
    theorem, _ = rests_on(*clause_of("protocol", "confirmed_changes_survive"))
    shared = ", ".join(f"`{name}`" for path, name in sorted(theorem.keys() & needed.keys())) or "none"
    yield ""
    yield f"The theorem of the protocol rests on {summed(theorem)}, in `crates/protocol/specs`. The guarantee of `run` names of these: {shared}."


# Lines by crate

def lines(commit=None):
    def read(path):
        if not commit:
            return (TOP / path).read_text()
        return subprocess.run(["git", "show", f"{commit}:{path}"], cwd=TOP, capture_output=True, text=True, check=True).stdout

    listed = ["git", "ls-tree", "-r", "--name-only", commit] if commit else ["git", "ls-files", "-co", "--exclude-standard"]
    files = subprocess.run(listed, cwd=TOP, capture_output=True, text=True, check=True).stdout.split("\n")
    kinds = ("src", "specs", "answers", "lemmas", "edits")
    counts = collections.defaultdict(lambda: dict.fromkeys(kinds, 0))
    for path in files:
        match = re.match(r"crates/(\w+)/(src|specs|proofs|must-fail)/.*\.(rt|antt|edit)$", path)
        if not match or not (commit or (TOP / path).exists()):
            continue
        crate, folder = match[1], match[2]
        answers = path.endswith(("/Answers.antt", "/Invariants.antt"))
        kind = {"proofs": "answers" if answers else "lemmas", "must-fail": "edits"}.get(folder, folder)
        counts[crate][kind] += 1 if kind == "edits" else read(path).count("\n")
    print("| crate | src, lines | specs | answers | lemmas | edits |")
    print("|---|---|---|---|---|---|")
    for crate in [*sorted(counts, key=lambda it: (crates() + [it]).index(it)), "all"]:
        of = counts[crate] if crate != "all" else {kind: sum(one[kind] for one in counts.values()) for kind in kinds}
        print(f"| {crate} | " + " | ".join(f"{of[kind]:,}" if of[kind] else "" for kind in kinds) + " |")


def main(words):
    if words[:1] == ["--lines"]:
        return lines(*words[1:2])
    was = MAP.read_text()
    text, lost = renewed(was)
    for name, table in (("reading", reading),):
        text = re.sub(rf"(<!-- begin {name} -->\n).*?(<!-- end -->)", lambda it: it[1] + "\n".join(table()) + "\n" + it[2], text, flags=re.S)
    lost += sorted(lacking)
    for one in lost:
        print(f"tools/map.py: not found: {one}")
    if "--check" in words:
        if text != was:
            print("tools/map.py: docs/MAP.md is not as the code is now: run python3 tools/map.py")
        return 1 if lost or text != was else 0
    MAP.write_text(text)
    return 1 if lost else 0


if __name__ == "__main__":
    sys.exit(main(sys.argv[1:]))
