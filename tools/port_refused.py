#!/usr/bin/env python3
"""Brings the lines 'refused: FILE NAME' of crates/*/must-fail/ to '# refused: ..', as .ci/refusals reads them.

A proof of a function, proofs/A/F/Proof.antt, is named by the function, 'fn CRATE::A::F', since most have no file now. A
lemma keeps its file, and gets the name that tools/port_names.tsv has for it. Run it at the top; what is done stays so."""
import glob
import os
import re

RENAMED = dict(line.rstrip("\n").split("\t")[:2] for line in open("tools/port_names.tsv", encoding="utf-8") if "\t" in line)


def declared(file, name):
    with open(file, encoding="utf-8") as it:
        return re.search(rf"(?m)^ *(?:(?:pub|abbrev|unfoldable) )*{re.escape(name)} :", it.read())


def turned(crate, file, name):
    of = re.fullmatch(r"proofs/(.+)/Proof\.antt", file)
    if of:
        return f"# refused: fn {crate}::{of[1].replace('/', '::').replace('+', '')}"
    path = f"crates/{crate}/{file}"
    for it in (name, RENAMED.get(name, name), name.replace("-", "_")):
        if os.path.isfile(path) and declared(path, it):
            return f"# refused: {file} {it}"
    print(f"{crate}: {file} has no {name}")
    return f"# refused: {file} {name}"


for edit in sorted(glob.glob("crates/*/must-fail/**/*.edit", recursive=True)):
    crate = edit.split("/")[1]
    with open(edit, encoding="utf-8") as it:
        text = it.read()
    new = re.sub(r"(?m)^(?:# )?refused: (\S+) (\S+)$", lambda it: it[0] if it[1] == "fn" else turned(crate, it[1], it[2]), text)
    if new != text:
        with open(edit, "w", encoding="utf-8") as it:
            it.write(new)
