#!/usr/bin/env python3
"""Brings this repository's own definitions and lemmas to snake case, after port.py (issue "Bring this repository to today's Rattle").

usage: python3 tools/respell.py [--check]     at the top of the repository

A name that specs/ or a lemma file of proofs/ declares in lowerCamel case or with dashes gets underscores: `perKw` is `per_kw`, `whole-early` is `whole_early`.
Types, modules, functions of src/, exported names, strings, inputs and outputs keep theirs. Names of goals (proofs/FUNCTION/) are Rattle's and stay.
--check writes nothing; it prints the names that would fall together.
"""
import os
import re
import sys

WORD = r"[^\s(){}.;,@\"«»\[\]`:=|]+"
DECLARED = re.compile(r"(?m)^ *(?:(?:abbrev|unfoldable|opaque|pub|let|where|module|record|data|private) )*(%s(?: %s)*)(?: \{[^{}\n]*\})* :(?![:=])" % (WORD, WORD))
USE = re.compile(r"\buse ([^\s;{]+?)\.?(?:\{([^;}]*)\})?(?: as ([^\s;]+))?(?=;|\s*$)", re.M)
# Names that would fall together with another, or with a field or a crate: what they are called instead.
GIVEN = {
    "lastStatus": "last_status_of",
    "firstSheet": "first_figures",
    "firstFcr": "FirstFcr",
    "firstAfrr": "FirstAfrr",
    "firstMfrr": "FirstMfrr",
}
# Lemmas that port.py gave the spelling that a definition gets here, by crate; and names that it garbled.
GIVEN_IN = {
    "abla": {"no_call": "no_call_lem"},
    "cut": {"goes_on": "goes_on_lem"},
    "mfrr": {"taken_in": "taken_in_lem"},
    "pieces": {"block_room": "block_room_lem", "last_Line": "last_line"},
    "book": {"with_Second": "with_second"},
    "report": {"with_Second": "with_second"},
}


def snake(name):
    words = re.sub(r"(?<=[a-z0-9])[A-Z]", lambda m: "_" + m[0].lower(), name)
    return re.sub(r"_+", "_", words.replace("-", "_"))


def texts(*endings):
    for folder, dirs, files in os.walk("crates"):
        dirs[:] = sorted(d for d in dirs if d != "out")
        for f in sorted(files):
            if f.endswith(endings):
                yield os.path.join(folder, f)


def read(path):
    with open(path, encoding="utf-8") as f:
        return f.read()


def code_of(text):
    """The text without its comments."""
    return re.sub(r"(?m)(^|\s)--(?=\s|$|-).*$", "", text)


def is_function(path):
    """Whether the file answers goals of a function: proofs/FUNCTION/.."""
    return "/proofs/" in path and "/" in path.split("/proofs/")[1]


def ours(path):
    return path.startswith("Rattle.") and path.split(".")[1] in CRATES


def names_in(path):
    """The names that the file declares, and those that it brings in from libraries that are not ours."""
    code = code_of(read(path))
    own = set()
    for group in DECLARED.findall(code):
        own.update(group.split(" "))
    theirs = set()
    for module, items, _ in USE.findall(code):
        if not ours(module):
            theirs.update(re.findall(WORD, items or ""))
    return own, theirs


def is_due(name):
    return re.match(r"[a-z]", name) and (re.search(r"[A-Z]", name) or "-" in name) and re.fullmatch(r"[\w'₀-₉-]+", name)


def table():
    declared = set()
    for path in texts(".antt"):
        if not is_function(path):
            declared |= names_in(path)[0]
    due = {name for name in declared if is_due(name)}
    fields = set()
    for path in texts(".rt"):
        fields.update(re.findall(r"(?m)^    (?:pub )?(\w+): ", read(path)))
    camel = {snake(name) for name in due if re.search("[A-Z]", name)}
    found = {}
    for name in due:
        new = snake(name)
        if "-" in name and new in fields:
            new += "_is"
        elif "-" in name and (new in camel or new in declared):
            new += "_lem"
        found[name] = GIVEN.get(name, new)
    return {**found, **GIVEN}


CRATES = set(os.listdir("crates"))


def turned(text, names, quiet):
    """The text with the names replaced: all of its words, or in comments only those in camel case and those in backticks."""
    word = re.compile(r"(?<![\w'₀-₉-])([a-z][\w'₀-₉-]*)")

    def words(s):
        return word.sub(lambda m: names.get(m[1], m[1]), s)

    def comment(s):
        s = word.sub(lambda m: names[m[1]] if m[1] in names and re.search("[A-Z]", m[1]) else m[1], s)
        return re.sub(r"`[^`\n]*`", lambda m: words(m[0]), s)

    out = []
    for line in text.split("\n"):
        m = re.search(quiet, line) if quiet else None
        cut = m.start() if m else len(line)
        out.append(words(line[:cut]) + comment(line[cut:]))
    return "\n".join(out)


def main():
    names = table()
    check = "--check" in sys.argv
    by_new = {}
    for old, new in names.items():
        by_new.setdefault(new, []).append(old)
    for new, olds in sorted(by_new.items()):
        if len(olds) > 1 and check:
            print(f"together: {new}: {', '.join(sorted(olds))}")
    for path in texts(".antt", ".rt") if check else ():
        text = read(path)
        code = code_of(text) if path.endswith(".antt") else re.sub(r"//.*", "", text)
        words = set(re.findall(r"(?<![\w'₀-₉-])[a-z][\w'₀-₉-]*", code))
        for old in sorted(words & set(names)):
            if names[old] in words:
                print(f"met: {path}: {old} and {names[old]}")
    if check:
        return
    for path in texts(".antt", ".rt", ".edit"):
        text = read(path)
        here = {**names, **GIVEN_IN.get(path.split(os.sep)[1], {})} if path.endswith(".antt") else dict(names)
        if path.endswith(".antt"):
            own, theirs = names_in(path)
            if is_function(path):
                theirs |= {n for n in own if "-" in n}
            for n in theirs:
                here.pop(n, None)
        quiet = {".antt": r"(^|(?<=\s))--(?=\s|$)", ".rt": r"//", ".edit": r"^(?!old:|new:|file:)"}[os.path.splitext(path)[1]]
        new = turned(text, here, quiet)
        if new != text:
            with open(path, "w", encoding="utf-8") as f:
                f.write(new)


if __name__ == "__main__":
    main()
