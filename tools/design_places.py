#!/usr/bin/env python3
"""design_places.py [POINT] [FOLDER]: the places of src/ that docs/DESIGN-PASS.md counts, by its points 1 to 7; with no point, the counts alone.

A place is a line of a source below FOLDER/crates (default: the folder above this file's). The patterns are those that the page
states; what they find is read by a person, and the page says what is kept and why."""
import collections
import pathlib
import re
import sys

FLAG = re.compile(r"^\s+(pub )?(ok|good|due|fault|number|sort): (bool|u8|u32|usize),")
SENTINEL = re.compile(r"^\s*//.*(\b0 (where|for|past|is neither|under)|, and (0|16|256) |; 0 |or 65,536|is 0, 0|Number 0 is|0 no kind|as 0\b|, or 0 |else 0\b|tail 0)")
CODE = re.compile(r"\b(kind|class|sort|state|parent|parameter|read): u8\b|\b(kind|class|only): (u32|usize)\b")
CODE_CONST = re.compile(r"^\s*(pub )?const [A-Z_0-9]+: (u8|u32|usize|Kind|Keyword) = (.*(Kind|Keyword|number)::|Kind \{|Keyword \{)")
NUMBERED = re.compile(r"^\s*(pub )?const [A-Z_0-9]+: (u8|u32) = [0-9]+;")
BY_HAND = re.compile(
    r"^\s*(pub )?fn (equal|copy|copy_\d+|lesser|least|byte_at|byte_within|is_continuation|hex_digit|hex|digit|put_decimal|put_digits|"
    r"of_name|class_of|word|put_answer|put_record|words|if_is|same|string|part)\b"
)
ARRAY = re.compile(r"= \[[^;\]]+; [A-Z_0-9a-z]+\];")
STEP = re.compile(r"^\s*match (kind|class|spelling|alphabet|element\.kind|list\.class)\b|^\s*if (sort|spelling|state|class|kind) == ")


class Function:
    def __init__(self, file, line, name, head, body):
        self.file, self.line, self.name, self.head, self.body = file, line, name, head, body

    def place(self):
        return f"{self.file}:{self.line}: fn {self.name}"


def sources(top):
    for path in sorted(top.glob("crates/*/src/**/*.rt")):
        yield path.relative_to(top), path.read_text().splitlines()


def functions(top):
    for file, lines in sources(top):
        at = 0
        while at < len(lines):
            start = re.match(r"^(\s*)(pub )?(extern \"C\" )?(const )?fn (\w+)", lines[at])
            if not start:
                at += 1
                continue
            indent, name = start.group(1), start.group(5)
            end = at
            while not re.match(rf"^{indent}}}", lines[end]) and not re.search(r"\{ .* \}$", lines[end]) or end == at and not lines[end].rstrip().endswith("}"):
                if lines[end] == indent + "}":
                    break
                end += 1
                if end >= len(lines):
                    break
            while end < len(lines) and lines[end] != indent + "}":
                end += 1
            text = lines[at : end + 1]
            opening = next((k for k, line in enumerate(text) if line == indent + "{" or line.endswith(" {") and "ensures" not in line and "requires" not in line), 0)
            yield Function(file, at + 1, name, "\n".join(text[: opening + 1]), "\n".join(text[opening + 1 : -1]))
            at = end + 1


def matching(top, *patterns):
    for file, lines in sources(top):
        for number, line in enumerate(lines, 1):
            if any(p.search(line) for p in patterns):
                yield f"{file}:{number}: {line.strip()}"


def point_1(top):
    """own enums; a flag or number beside a value; answers that stand for none; numbers for kinds, states and refusals"""
    for file, lines in sources(top):
        for number, line in enumerate(lines, 1):
            if re.match(r"^\s*(pub )?enum (Found|Turn)\b", line) and any("Nothing" in later or "Done" in later for later in lines[number : number + 8]):
                yield f"{file}:{number}: {line.strip()}"
    yield from matching(top, FLAG)
    yield from matching(top, SENTINEL)
    yield from matching(top, CODE)
    yield from matching(top, CODE_CONST, NUMBERED)


def normal(text, name):
    text = re.sub(r"//.*", "", text)
    text = re.sub(rf"\b{name}\b", "F", text)
    text = re.sub(r"b?\"[^\"]*\"|b?'[^']+'|\b0x[0-9A-Fa-f]+\b|\b\d+\b", "N", text)
    text = re.sub(r"\b(u8|u32|usize|Nested|Imperative|nested|imperative)\b", "T", text)
    text = re.sub(r"\b[A-Z][A-Z_]+\b", "C", text)
    return re.sub(r"\s+", " ", re.sub(r"_(N|\d+|nested|imperative)\b", "_T", text))


def point_2(top):
    """functions that are the same but for literals, constants, types and the two spellings"""
    groups = collections.defaultdict(list)
    stems = collections.defaultdict(list)
    for f in functions(top):
        if len(f.body.split()) >= 6:
            groups[normal(f.body, f.name)].append(f)
        stems[re.sub(r"_(\d+(_at)?|nested|imperative)$|^(least|lesser)$", "", f.name)].append(f)
    said = set()
    for group in list(groups.values()) + [g for s, g in stems.items() if len(g) > 1 and any(re.search(r"\d|nested|imperative", f.name) for f in g)]:
        if len(group) > 1:
            for f in group:
                if f.place() not in said:
                    said.add(f.place())
                    yield f.place()
    yield from (f.place() for f in functions(top) if f.name in ("least", "lesser") and f.place() not in said)


def point_3(top):
    """loops whose index a line of the body raises by one"""
    for f in functions(top):
        lines = f.body.splitlines()
        for at, line in enumerate(lines):
            found = re.match(r"^(\s*)while (.*)\{", line)
            if not found:
                continue
            body = []
            for later in lines[at + 1 :]:
                if later.startswith(found.group(1) + "}"):
                    break
                body.append(later)
            counted = re.search(r"\b(\w+) <=? |< (\w+)", found.group(2))
            if counted and any(re.match(r"\s*(\w+) \+= 1;", b) and re.match(r"\s*(\w+)", b).group(1) in found.group(2) for b in body):
                yield f"{f.file}: fn {f.name}: {line.strip()}"


def point_4(top):
    """what std or a derive does, written out"""
    yield from matching(top, BY_HAND)


def parameters(head):
    inside = head[head.index("(") + 1 :] if "(" in head else ""
    depth, end = 1, 0
    for end, c in enumerate(inside):
        depth += c == "("
        depth -= c == ")"
        if depth == 0:
            break
    return frozenset(re.findall(r"\b(\w+): (?:&|mut |usize|u8|u32|\[)", inside[:end]))


def point_5(top):
    """clauses of `requires` that three functions or more state, and functions that take three parameters or more that travel together"""
    facts = collections.defaultdict(list)
    pairs = collections.Counter()
    all_functions = list(functions(top))
    for f in all_functions:
        for clause in re.findall(r"requires(?: \w+)? \{ (.*?) \}\n", f.head + "\n", re.S):
            for fact in re.split(r" × (?![^(]*\))", clause):
                facts[re.sub(r"\s+", " ", fact.strip("() "))].append(f)
        names = sorted(parameters(f.head))
        pairs.update((f.file.parts[1], a, b, c) for i, a in enumerate(names) for j, b in enumerate(names[i + 1 :], i + 1) for c in names[j + 1 :])
    for fact, users in sorted(facts.items()):
        if len(users) >= 3:
            yield from (f"{f.place()}: {fact}" for f in users)
    together = {(crate, frozenset(t)) for (crate, *t), n in pairs.items() if n >= 3}
    for f in all_functions:
        if any(crate == f.file.parts[1] and t <= parameters(f.head) for crate, t in together):
            yield f"{f.place()}({', '.join(sorted(parameters(f.head)))})"


def point_6(top):
    """arrays of a fixed size with a count beside them, and parallel arrays"""
    yield from matching(top, ARRAY)


def point_7(top):
    """a test of a kind, a class, a sort, a state or the spelling that picks the function to run"""
    yield from matching(top, STEP)


POINTS = {str(n): globals()[f"point_{n}"] for n in range(1, 8)}


def main():
    words = sys.argv[1:]
    top = pathlib.Path(words[-1]) if words and words[-1] not in POINTS else pathlib.Path(__file__).parent.parent
    if words and words[0] in POINTS:
        for place in POINTS[words[0]](top):
            print(place)
        return
    for number, point in POINTS.items():
        print(f"{number}. {len(list(point(top)))} places: {point.__doc__}")


if __name__ == "__main__":
    main()
