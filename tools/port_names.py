#!/usr/bin/env python3
"""Brings this repository's own definitions and lemmas to today's spelling: the words of port_names.tsv, old and new, one pair a line.

usage: python3 tools/port_names.py [--check]     at the top of the repository, after the port.py of the kit

It rewrites .rt files, .antt files and must-fail edits below crates/, and what stands between backquotes in pages. Strings stay as
they are, and so do the names of the document language in comments and pages. Run it once: a name that another had before would be turned again.
"""
import os
import re
import sys

HERE = os.path.dirname(os.path.abspath(__file__))
WORD = re.compile(r"[\w'′≢≡₀-₉-]+")
QUOTED = re.compile(r"`[^`\n]+`")
STRING = re.compile(r'("(?:[^"\\\n]|\\.)*")')
# Names of the document language, and a word of its paper, that are names of definitions too.
LANGUAGE = {"formal-item", "link-ext", "footnote-ref", "list-ordered", "list-unordered", "ill-formed"}


def table():
    with open(os.path.join(HERE, "port_names.tsv"), encoding="utf-8") as it:
        return dict(line.rstrip("\n").split("\t") for line in it if line.strip())


def turned(text, names):
    return WORD.sub(lambda m: names.get(m[0], m[0]), text)


def prose(text, names):
    """Turns the words of a comment or a page: the names of the document language stay."""
    return WORD.sub(lambda m: m[0] if m[0] in LANGUAGE else names.get(m[0], m[0]), text)


def code(line, names):
    """Turns a line of code: what stands in strings stays, and a comment is prose."""
    parts = STRING.split(line)
    for i in range(0, len(parts), 2):
        found = re.search(r"(^|\s)(--|//|#)(\s|$)", parts[i])
        if found:
            rest = parts[i][found.start():] + "".join(parts[i + 1:])
            return "".join(parts[:i]) + turned(parts[i][:found.start()], names) + prose(rest, names)
        parts[i] = turned(parts[i], names)
    return "".join(parts)


def paths(top):
    for folder, dirs, files in os.walk(top):
        dirs[:] = sorted(d for d in dirs if d not in (".git", "out", "target"))
        for name in sorted(files):
            yield os.path.join(folder, name)


def main(argv):
    names = table()
    changed = 0
    for path in paths("."):
        inside = path.startswith("./crates/")
        if inside and path.endswith((".rt", ".antt", ".edit")):
            turn = lambda text: "\n".join(code(line, names) for line in text.split("\n"))
        elif path.endswith(".md"):
            turn = lambda text: QUOTED.sub(lambda m: prose(m[0], names), text)
        else:
            continue
        with open(path, encoding="utf-8") as it:
            text = it.read()
        new = turn(text)
        if new != text:
            changed += 1
            if "--check" not in argv:
                with open(path, "w", encoding="utf-8") as it:
                    it.write(new)
    print(f"{changed} files changed")
    return 0


if __name__ == "__main__":
    raise SystemExit(main(sys.argv[1:]))
