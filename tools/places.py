#!/usr/bin/env python3
"""Counts in crates/*/src what docs/DESIGN-PASS.md speaks of: `tools/places.py` prints the counts, `tools/places.py POINT` the places
of one point, as FILE:LINE: what. Points are the rows of that page: 1a, 1b, 1c, 1d, 2, 3, 4a, 4b, 4c, 5a, 5b, 6a, 6b, 7, 8."""
import collections
import pathlib
import re
import sys

ROOT = pathlib.Path(__file__).resolve().parent.parent
FUNCTION = re.compile(r"^ *(?:pub(?:\([a-z]+\))? )?(?:extern \"C\" )?fn (\w+)", re.M)
NUMBER = re.compile(r"\b(?:0x[0-9A-Fa-f_]+|\d[\d_]*)(?:u8|u16|u32|u64|usize|i8|i16|i32)?\b")
TYPE = re.compile(r"\b(?:u8|u16|u32|u64|usize|i8|i16|i32|i64)\b")
KIND = r"(?:\w+\.)*(?:khz|mode|signal|subframes|call|table|code|active|prevtype|refusal|how)"


def sources():
    for path in sorted(ROOT.glob("crates/*/src/**/*.rt")):
        text = re.sub(r"//[^\n]*", "", path.read_text())
        yield str(path.relative_to(ROOT)), text


def functions():
    """Each function: file, line, name, parameters, clauses, body."""
    for path, text in sources():
        starts = list(FUNCTION.finditer(text))
        for at, found in enumerate(starts):
            end = starts[at + 1].start() if at + 1 < len(starts) else len(text)
            whole = text[found.start() : end]
            # The body begins at a brace that stands alone on its line (clauses stand between), or ends the line of the name.
            opened = re.search(r"^ *\{$|\{$", whole, re.M)
            head, body = (whole[: opened.start()], whole[opened.end() :]) if opened else (whole, "")
            body = body[: (re.search(r"^\}", body, re.M) or re.search(r"$", body)).start()]
            yield path, text[: found.start()].count("\n") + 1, found.group(1), head, body


def structs():
    for path, text in sources():
        for found in re.finditer(r"^( *)(?:pub )?struct (\w+)[^{;\n]*\{(.*?)^\1\}", text, re.M | re.S):
            fields = re.findall(r"(?:pub )?(\w+): ([^,\n]+(?:\[[^\]]*\])?),", found.group(3))
            yield path, text[: found.start()].count("\n") + 1, found.group(2), fields


def parameters(head):
    inside = re.search(r"fn \w+(?:<[^>]*>)?\((.*?)\)(?: ->|\s*$|\s+(?:requires|ensures|where)|\n)", head, re.S)
    return re.findall(r"(\w+): (&mut |&)?([^,]+)", inside.group(1)) if inside else []


def answers(head):
    found = re.search(r"\) -> ([^\n{]+?)\s*(?:$|\n|requires|ensures|where)", head)
    return found.group(1).strip() if found else ""


def point_1a():
    "structs with a flag or a refusal's number beside what holds only without it"
    for path, line, name, fields in structs():
        flags = [f for f, t in fields if f == "refusal" or (t == "bool" and len(fields) > 1)]
        if flags:
            yield path, line, f"{name}.{flags[0]}"


def point_1b():
    "functions that answer a refusal's number, or 0"
    for path, line, name, head, _ in functions():
        clause = re.sub(r"\bspecs\.\S+", "", head)
        if answers(head) == "u32" and re.search(r"_rule|gate|refusal|≡ first_of", clause):
            yield path, line, name


def point_1c():
    "numbers that stand for a kind, or for none"
    for path, text in sources():
        for found in re.finditer(r"^ *(?:pub )?const (\w+): (?:u8|u32|i32) = (\d+);", text, re.M):
            yield path, text[: found.start()].count("\n") + 1, found.group(1)
        for found in re.finditer(r"(?:return|else \{)?\s*(-1)\s*(?:;|\}|$)", text):
            yield path, text[: found.start()].count("\n") + 1, "-1"


def point_1d():
    "tests of a kind's number against a literal or a constant, outside of clauses"
    for path, line, name, _, body in functions():
        for found in re.finditer(rf"\b({KIND}) (?:==|!=) ([A-Z0-9_a-z:]+)", body):
            yield path, line, f"{name}: {found.group(0)}"


def shape(body):
    names = {}
    words = re.findall(r"\w+|[^\w\s]", TYPE.sub("T", NUMBER.sub("N", body)))
    keep = {"let", "mut", "if", "else", "while", "for", "in", "return", "as", "match", "true", "false", "N", "T"}
    return " ".join(w if w in keep or not w[0].isalpha() else names.setdefault(w, f"v{len(names)}") for w in words)


def point_2():
    "functions whose bodies differ only in names, numbers and number types"
    groups = collections.defaultdict(list)
    for path, line, name, head, body in functions():
        words = shape(body)
        if len(words.split()) > 25:
            groups[words].append((path, line, name))
    for group in groups.values():
        for path, line, name in group if len(group) > 1 else []:
            yield path, line, f"{name} (with {', '.join(n for _, _, n in group if n != name)[:80] or 'its namesake'})"


def point_3():
    "while loops that count an index by hand"
    for path, line, name, _, body in functions():
        for found in re.finditer(r"^( *)while ([^{]*)\{(.*?)^\1\}", body, re.M | re.S):
            counted = set(re.findall(r"\b(\w+)\b", found.group(2))) - {"len", "d", "w", "p"}
            stepped = {v for v in counted if re.search(rf"^\s*{v} (?:\+=|-=) \d+;|^\s*{v} = (?:j|i|{v} [-+] 1);", found.group(3), re.M)}
            if stepped:
                yield path, line, f"{name}: while {found.group(2).strip()}"


def point_4a():
    "equality written field by field"
    for path, line, name, _, body in functions():
        if len(re.findall(r"\(?\b(\w+)\.(\w+) == (\w+)\.\2\b", body)) > 1:
            yield path, line, name


def point_4b():
    "functions that convert and do nothing else: a cast, bytes shifted together, a sign by its bits"
    for path, line, name, _, body in functions():
        lines = [x for x in body.strip().splitlines() if x.strip()]
        if len(lines) == 1 and re.fullmatch(r"\s*\(?\w+(?:\[\w+\])? as \w+\)?", lines[0]):
            yield path, line, name
        elif re.search(r"<< 8|256 \* wide|!\(\(", body):
            yield path, line, name


def point_4c():
    "the smaller or the larger of two, a difference held at 0, a magnitude, a range: by if"
    for path, line, name, head, body in functions():
        two = re.fullmatch(r"\s*if (.+?) (<=|<|>|>=) (.+?) \{\s*(?:return )?(.+?);?\s*\}(?: else \{)?\s*(.+?)\s*\}?\s*", body, re.S)
        if two and "\n\n" not in body and {two.group(4), two.group(5)} == {two.group(1), two.group(3)}:
            yield path, line, name
        elif re.search(r"ensures \{ (?:\(?result ≡ )(?:min|max|nat_abs|a - b|min_z|max_z|capped)", head):
            yield path, line, name


def thrice(groups):
    """The functions of each group of three or more, the largest group first."""
    for what, places in sorted(groups.items(), key=lambda it: -len(it[1])):
        if len(places) > 2:
            for path, line, name in places:
                yield path, line, f"{what}: {name}"


def point_5a():
    "facts of a value in the requires of three functions or more: each function that has one"
    facts = collections.defaultdict(list)
    for path, line, name, head, _ in functions():
        clauses = " ".join(re.findall(r"requires(?: \w+)? \{(.*?)\}\s*(?=requires|ensures|\n|$)", head, re.S))
        for fact in sorted(set(re.findall(r"(?:^|[×(]) *([A-Z]\w+) ", clauses))):
            facts[fact].append((path, line, name))
    yield from thrice(facts)


def point_5b():
    "parameters that travel together through three functions or more: each function that has such a pair"
    pairs = collections.defaultdict(list)
    for path, line, name, head, _ in functions():
        names = [p for p, _, _ in parameters(head)]
        for pair in zip(names, names[1:]):
            pairs[f"({', '.join(pair)})"].append((path, line, name))
    yield from thrice(pairs)


def point_6a():
    "structs with arrays of one length side by side"
    for path, line, name, fields in structs():
        sizes = collections.Counter(m.group(1) for _, t in fields if (m := re.search(r"; (\d+)\]", t)))
        if any(n > 1 for n in sizes.values()):
            yield path, line, name


def point_6b():
    "a lent buffer with the place reached beside it, which is answered"
    for path, line, name, head, _ in functions():
        given = parameters(head)
        if any(lent == "&mut " and "[" in kind for _, lent, kind in given) and answers(head) == "usize":
            yield path, line, name


def point_7():
    "a switch on which step to run, or a table of functions"
    for path, line, name, head, body in functions():
        if re.search(r"\bif (?:\w+\.)?(?:call|table) (?:==|<=|<) ", body) or re.search(r"\bfn\(", head):
            yield path, line, name


def point_8():
    "proofs by hand of a function's whole walk (files Proof.antt)"
    for path in sorted(ROOT.glob("crates/*/proofs/**/Proof.antt")):
        yield str(path.relative_to(ROOT)), 1, path.parent.name


def main():
    points = {name[6:]: found for name, found in globals().items() if name.startswith("point_")}
    if len(sys.argv) > 1:
        for path, line, what in points[sys.argv[1]]():
            print(f"{path}:{line}: {what}")
        return
    for name, found in points.items():
        print(f"{name:3} {sum(1 for _ in found()):4}  {found.__doc__}")


main()
