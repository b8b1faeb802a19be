"""Lists the places in crates/*/src, and the proofs, that docs/DESIGN-PASS.md counts: python3 tools/forms.py [POINT..]"""
import collections
import pathlib
import re
import sys

TOP = pathlib.Path(__file__).resolve().parent.parent
FILES = sorted(TOP.glob("crates/*/src/**/*.rt"))


def name(path):
    return str(path.relative_to(TOP / "crates"))


def lines(pattern, skip=r"^\s*//"):
    """Places whose line has the pattern."""
    for path in FILES:
        for number, line in enumerate(path.read_text().split("\n"), 1):
            if re.search(pattern, line) and not re.search(skip, line):
                yield f"{name(path)}:{number} {line.strip()}"


def blocks(head):
    """Place, name and text of each item that begins with the head, up to its closing brace."""
    for path in FILES:
        text = path.read_text()
        for match in re.finditer(head, text, re.M):
            start = text.index("{", match.end()) if "{" in text[match.end():] else len(text)
            if ";" in text[match.end():start]:
                continue
            end, depth = start, 0
            for end in range(start, len(text)):
                depth += (text[end] == "{") - (text[end] == "}")
                if depth == 0:
                    break
            yield f"{name(path)}:{text.count(chr(10), 0, match.start()) + 1}", match, text[match.start():end + 1]


def functions():
    """Place, name, parameters, clauses and body of each function."""
    for path in FILES:
        text = path.read_text()
        for match in re.finditer(r"^( *)(?:pub(?:\([a-z]+\))? )?fn (\w+)", text, re.M):
            indent = match.group(1)
            close = re.search(rf"^{indent}(\}}|\{{\}})$", text[match.start():], re.M)
            whole = text[match.start():match.start() + close.end()] if close else ""
            head, _, body = whole.partition(f"\n{indent}{{\n")
            if not body:
                head, _, body = whole.partition(" {\n")
            place = f"{name(path)}:{text.count(chr(10), 0, match.start()) + 1} {match.group(2)}"
            params = re.findall(r"[(,]\s*(?:mut )?([a-z]\w*): ", head.split(" ensures")[0].split(" requires")[0])
            clauses = re.findall(r"(?:requires|ensures)[^{]*\{(.*)\}\s*$", head, re.M)
            yield place, match.group(2), params, [c.strip() for c in clauses], body


def point_1():
    for place, match, text in blocks(r"^#?.*\b(struct|enum) (\w+)"):
        for field in re.findall(r"^\s+(?:pub(?:\([a-z]+\))? )?(\w+): bool", text, re.M):
            yield f"{place} {match.group(2)}.{field}: a flag"
        if match.group(1) == "enum" and re.search(r"^\s+(Pending|Refused|None|Nothing|Unknown|Failed)\b", text, re.M):
            yield f"{place} {match.group(2)}: a case as of Option or Result"
    yield from lines(r"-> (u8|Result<[^<>]*, u(8|16|32)>)")


def shape(body):
    """The body with each name of a variable, type or field, and each number, taken for another."""
    seen = {}
    words = re.findall(r"[A-Za-z_]\w*|\d[\d_]*|[^\s\w]", re.sub(r"//.*", "", body))
    keep = {"if", "else", "match", "for", "in", "let", "mut", "return", "Ok", "Err", "Some", "None", "self", "while", "loop"}
    return tuple(w if w in keep or not re.match(r"\w", w) else seen.setdefault(w, len(seen)) for w in words)


def point_2():
    shapes = collections.defaultdict(list)
    for place, _, _, _, body in functions():
        found = shape(body)
        if len(found) >= 12:
            shapes[found].append(place)
    for places in shapes.values():
        if len(places) > 1:
            yield " ~ ".join(places)


def point_3():
    yield from lines(r"\bwhile\b|\bloop \{|for \w+ in [\w.()]+\.\.|(wrapping|saturating)_add\(1\)| \+= 1;")


def point_4():
    yield from lines(r"fn (is_same|is_earlier|same_\w+|\w+_word|word_of|kind_of|key|of|number|row|verdict)\(.*|fn (word_of|kind_of|of|row)\b|fn (new|read)\(.*-> .*(Result|Option)<")
    yield from lines(r"ViewCount \{ number: 0 \}|zero\(\)\.row\(\)")


def point_5():
    pairs, facts = collections.defaultdict(list), collections.defaultdict(list)
    for place, _, params, clauses, _ in functions():
        for i, one in enumerate(params):
            for two in params[i + 1:]:
                pairs[tuple(sorted((one, two)))].append(place)
        for clause in clauses:
            for part in re.split(r" × ", clause):
                if not re.search(r"result|\.new", part):
                    facts[part.strip("() ")].append(place)
    for pair, places in sorted(pairs.items(), key=lambda p: -len(p[1])):
        if len(places) > 2:
            yield f"parameters {pair[0]}, {pair[1]}: {len(places)} functions"
    for fact, places in facts.items():
        if len(places) > 2:
            yield f"fact {fact}: {len(places)} functions"


def point_6():
    yield from lines(r"^\s+(pub(\([a-z]+\))? )?\w+: (\[.*; \d+\]|Vec<|BTreeMap<|&'a mut \[|&'a \[|u16, // length)")
    yield from lines(r"^\s+(pub(\([a-z]+\))? )?(count|length|pool|first): u16,$")


def point_7():
    yield from lines(r"match (next|word|step|turn\.\w+|words\.word\(\)\?|\(row\.status.*) \{")


def point_8():
    for crate in sorted(TOP.glob("crates/*")):
        files = [f for f in crate.glob("proofs/**/*.antt")]
        answers = [f for f in files if f.name in ("Answers.antt", "Invariants.antt")]
        lemmas = [f for f in files if f not in answers]
        count = lambda fs: sum(len(f.read_text().split("\n")) - 1 for f in fs)
        if files:
            yield f"{crate.name}: {len(answers)} files of answers and invariants, {count(answers)} lines; {len(lemmas)} of lemmas, {count(lemmas)} lines"


POINTS = [point_1, point_2, point_3, point_4, point_5, point_6, point_7, point_8]
for wanted in sys.argv[1:] or "12345678":
    found = list(POINTS[int(wanted) - 1]())
    print(f"point {wanted}: {len(found)}")
    for line in found:
        print("  " + line)
