#!/usr/bin/env python3
"""Brings the repository's own definitions and lemmas to today's spelling: functions, lemmas, fields and constructors of antt in snake case,
facts and types in upper camel case, a dash only behind a word on lists, numbers or tests and behind the name of a type.

usage: tools/respell.py [--check]       at the top, once, behind the script that turns the older surface

It goes by tokens, over crates/ (.antt, .rt and .edit) and, within backticks, over README.md and docs/. Strings keep their text, and so does
all code of src/: what it calls is in snake case as it stands. A name that would fall together with another one is printed, not hidden.
"""
import collections
import glob
import os
import re
import sys

TOKEN = re.compile(r"[^\s(){}.;,@\"«»\[\]\\|`:]+")
STRING = re.compile(r'b?"(?:\\.|[^"\\])*"', re.S)
CAMEL = re.compile(r"[a-z][a-z0-9]*(?:[A-Z][A-Za-z0-9]*)+['′]*$")
DECLARED = re.compile(r"^(?:(?:pub|abbrev|unfoldable|data|record|ruleset)\s+)*([^\s(){}.;,@\"«»\[\]\\|`:]+)((?:\s*[({][^)}]*[)}])*)\s*:(?!\S)(.*)")
MEMBER = re.compile(r"^ +(?:(?:pub|abbrev|unfoldable)\s+)*([^\s(){}.;,@\"«»\[\]\\|`:]+)\s*:(?!\S)")
LIST_WORDS = "length take drop append sets get_or ltb leb eqb cond".split()
# Names for which the rule gives one that is there already.
BY_HAND = {"restsUntilTaken": "RestsUntilTaken"}
# Lemmas that would have the name of the definition that they speak of.
LEMMAS = {it: re.sub("-", "_", it) + "_lem" for it in "goes_on above_zero taken_out too_long not_taken is_read one_more fate-text say-row way-row".split()}


def read(path):
    with open(path, encoding="utf-8") as f:
        return f.read()


def snake(word):
    return re.sub(r"(?<=[a-z0-9])(?=[A-Z])", "_", word).lower()


def files(*endings):
    for top, dirs, names in os.walk("crates"):
        dirs[:] = sorted(d for d in dirs if d != "out")
        for n in sorted(names):
            if n.endswith(endings):
                yield os.path.join(top, n)


def declared():
    """Each name that the repository declares, with whether it is a type or a fact."""
    found = {}
    for path in files(".antt"):
        inside = ""
        lines = read(path).split("\n")
        for i, line in enumerate(lines):
            m = DECLARED.match(line)
            if m:
                kind = re.match(r"(?:pub\s+)?(data|record)", line)
                whole = m[3]
                for more in lines[i + 1:]:
                    if not more.startswith(" "):
                        break
                    whole += more
                inside = kind[1] if kind else ""
                if "Proof.antt" in path and re.match(r"\s*tie\.|.*statement M", m[3]):
                    continue
                is_type = bool(kind) or bool(re.search(r"Type 0\s*$", whole))
                found[m[1]] = found.get(m[1], False) or is_type
            elif MEMBER.match(line) and (inside or re.match(r" +(pub|abbrev|unfoldable)", line)) and "Proof.antt" not in path:
                found.setdefault(MEMBER.match(line)[1], False)
            elif line and not line.startswith((" ", "--")):
                inside = ""
    return found


def table():
    names = declared()
    fields = dashed_fields()
    to = {}
    for n in names:
        if n in LEMMAS:
            to[n] = LEMMAS[n]
        elif n in BY_HAND:
            to[n] = BY_HAND[n]
        elif "-" in n and re.match(r"[A-Za-z]", n) and "◌" not in n:
            first, *rest = n.split("-")
            rest = [snake(it) if CAMEL.match(it) else it for it in rest]
            head = snake(first) if CAMEL.match(first) else first
            keeps = first in LIST_WORDS or not first[0].islower()
            to[n] = head + ("-" if keeps else "_") + "_".join(rest)
    for path in files(".antt", ".rt", ".edit"):
        for w in TOKEN.findall(STRING.sub("", read(path))):
            if CAMEL.match(w) and w not in to:
                to[w] = BY_HAND.get(w, snake(w))
    taken = collections.Counter(to.values()) + collections.Counter(n for n in names if n not in to)
    for a in [it for it in to if "-" in it and it not in LEMMAS]:
        if taken[to[a]] > 1:
            to[a] += "_lem"
    return {a: b for a, b in to.items() if a != b}, fields


def dashed_fields():
    """The fields of the repository's own records: behind a dot any other name with a dash is one that Rattle made."""
    found = set()
    for path in files(".antt"):
        inside = False
        for line in read(path).split("\n"):
            if re.match(r"(?:pub\s+)?record", line):
                inside = True
            elif line and not line.startswith((" ", "--")):
                inside = False
            elif inside and MEMBER.match(line):
                found.add(MEMBER.match(line)[1])
    return found


def turned(text, to, fields, is_source=False):
    def one(m):
        word = m[0]
        behind = m.start() and m.string[m.start() - 1] == "."
        # the letter of an escape is none of a name's
        if m.start() and m.string[m.start() - 1] == "\\":
            return word
        if behind and (word in LEMMAS or "-" in word and word not in fields):
            return word
        if is_source and word in LEMMAS:
            return word
        return to.get(word, word)

    out, at = [], 0
    for s in STRING.finditer(text):
        out += [TOKEN.sub(one, text[at:s.start()]), s[0]]
        at = s.end()
    return "".join(out) + TOKEN.sub(one, text[at:])


def clashes(to):
    back = collections.defaultdict(set)
    for a, b in to.items():
        back[b].add(a)
    for b, many in sorted(back.items()):
        if len(many) > 1:
            print("fall together:", b, "<-", *sorted(many))
    for path in files(".antt", ".rt"):
        words = set(TOKEN.findall(read(path)))
        for w in sorted(words):
            if w in to and to[w] in words and to[w] not in to and path.endswith(".antt"):
                print(f"stands already: {path}: {w} -> {to[w]}")


def main():
    to, fields = table()
    clashes(to)
    print(len(to), "names")
    if "--check" in sys.argv:
        for a in sorted(to):
            print(a, to[a])
        return
    for path in [*files(".antt", ".rt", ".edit")]:
        text = read(path)
        new = turned(text, to, fields, path.endswith((".rt", ".edit")))
        if new != text:
            with open(path, "w", encoding="utf-8") as f:
                f.write(new)
    for path in ["README.md", *glob.glob("docs/*.md")]:
        text = read(path)
        new = re.sub(r"`[^`\n]+`", lambda m: turned(m[0], to, fields, True), text)
        if new != text:
            with open(path, "w", encoding="utf-8") as f:
                f.write(new)


if __name__ == "__main__":
    main()
