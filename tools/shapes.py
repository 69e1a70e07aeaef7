#!/usr/bin/env python3
"""Lists, for each point of docs/DESIGN-PASS.md, the places of src/ that have the older shape: tools/shapes.py [-l] [ROOT]

Without -l the counts alone. It goes by the text of the files (crates/*/src/*.rt), so what it lists is to be read."""
import collections
import glob
import os
import re
import sys

ROOT = next((it for it in sys.argv[1:] if it != "-l"), ".")
found = collections.defaultdict(list)


def note(point, place, what):
    found[point].append(f"{place}: {what}")



def variants(body):
    """The variants of an enum, each with whether it has data."""
    body = re.sub(r"//[^\n]*", "", body)
    flat, depth, word, out = "", 0, "", []
    for c in body:
        depth += c in "({"
        if c == "," and depth == 0:
            out.append(word.strip())
            word = ""
        else:
            word += c
        depth -= c in ")}"
    out.append(word.strip())
    return [(re.match(r"\w+", it).group(0), bool(re.search(r"[({]", it))) for it in out if it]


clauses = collections.defaultdict(list)
lent = collections.Counter()
for path in sorted(glob.glob(os.path.join(ROOT, "crates/*/src/*.rt"))):
    text = open(path, encoding="utf-8").read()
    place = os.path.relpath(path, os.path.join(ROOT, "crates"))
    for name, body in re.findall(r"(?ms)^(?:pub )?enum (\w+)[^{]*\{\n(.*?)^\}", text):
        cases = variants(body)
        plain = [it for it, has in cases if not has]
        data = [it for it, has in cases if has]
        if len(data) == 1 and len(plain) == 1:
            note("1 enum like Option", place, name)
        elif len(data) == 1 and len(plain) == 2:
            note("1 enum like Result", place, name)
    for name, body in re.findall(r"(?ms)^(?:pub )?struct (\w+)[^{;(]*\{\n(.*?)^\}", text):
        for flag in re.findall(r"(?m)^    (?:pub )?(\w+): bool,", body):
            note("1 flag in a struct", place, f"{name}.{flag}")
        for code in re.findall(r"(?m)^    (?:pub )?(number|phase|why|row): u\d+|^    (?:pub )?(number|phase|why|row): usize", body):
            note("1 number for a kind", place, f"{name}.{''.join(code)}")
        arrays = re.findall(r"(?m)^    (?:pub )?(\w+): \[", body)
        if len(arrays) > 1:
            note("6 arrays beside one another", place, f"{name}: {', '.join(arrays)}")
        if arrays and re.search(r"(?m)^    (?:pub )?(count|len|size): usize", body):
            note("6 array with its length beside", place, name)
    for n, line in enumerate(text.split("\n"), 1):
        if re.match(r" *while ", line) or re.match(r" *loop ", line):
            note("3 loop by hand", f"{place}:{n}", line.strip())
        if re.search(r"=> (true|false),$", line):
            note("4 arm of a table of true and false", f"{place}:{n}", line.strip())
        if re.match(r" *let mut \w+ = [\w.]+;$", line) and not re.search(r"= \d+;", line):
            note("4 copy changed field by field", f"{place}:{n}", line.strip())
        if re.search(r"\w+: _(,| )", line):
            note("4 pattern that names what it leaves out", f"{place}:{n}", line.strip())
        clause = re.match(r" *requires (?:\w+ )?\{ (.*) \}$", line)
        if clause:
            clauses[clause.group(1)].append(f"{place}:{n}")
    for name, params in re.findall(r"(?ms)^ *(?:pub(?:\(crate\))? )?fn (\w+)(?:<[^>]*>)?\((.*?)\)", text):
        names = re.findall(r"(\w+): &mut \[", params)
        if len(names) > 2:
            note("5 three and more lent arrays", place, f"{name}({', '.join(names)})")
for clause, places in sorted(clauses.items()):
    if len(places) > 2:
        note("5 fact in three and more contracts", ", ".join(places), clause)
for point in sorted(found):
    print(f"{point}: {len(found[point])}")
    if "-l" in sys.argv[1:]:
        for it in found[point]:
            print(f"    {it}")
