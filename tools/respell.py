#!/usr/bin/env python3
"""Brings the names of this repository's own definitions and lemmas to one spelling: words in snake case, types in camel case.

usage: python3 tools/respell.py        at the top of the repository; prints each name that changed

It reads the definitions of specs/ and proofs/ (fields and short names given by `as` too) and writes each use of a name in
specs/, proofs/ and the clauses of src/. Names that the library has or that the toolchain makes for goals and steps keep their spelling,
and so do the comments of src/; in those of specs/ and proofs/ a name is a name, but for the words of prose listed below.
"""
import glob
import re
import sys

HEAD = re.compile(r"^\s*(?:(?:abbrev|unfoldable|pub|record|data)\s+)*((?:[^\s:(){}=|λ,;.↦→]+\s+)+?)(?:[({].*)?:\s+(.*)$")
SHORT = re.compile(r"\bas\s+([^\s,;}]+-[^\s,;}]+)")
EDGE = r"[\w'◌-]"
# words of prose that are also names: in a comment they stay as they are
PROSE = {"half-erased", "Half-erased"}
# a name that would fall together with a field of src/, and a word that began as types do
OTHERS = {"half-erased": "is_half_erased", "Code-in": "code_in"}
# words that began with a capital letter, as types do, each in the one file that has it
WORDS = {
    "crates/choice/proofs/Finds.antt": {"Beyond": "beyond"},
    "crates/unit/proofs/Formatting.antt": {"Next": "next", "Rest": "rest"},
}


def spelled(name):
    if name in OTHERS:
        return OTHERS[name]
    if name[0].isupper():
        return "".join(part[:1].upper() + part[1:] for part in name.split("-"))
    return name.replace("-", "_")


def files(*kinds):
    for kind in kinds:
        yield from sorted(glob.glob(f"crates/*/{kind}", recursive=True))


def own_names():
    names, library = set(), set()
    for path in files("specs/**/*.antt", "proofs/**/*.antt"):
        for line in open(path, encoding="utf-8"):
            if line.lstrip().startswith(("--", "let ", "use ", "|")):
                continue
            head = HEAD.match(line)
            if head and not head[2].startswith("goal."):
                names |= {name for name in head[1].split() if re.fullmatch(r"[\w']+(-[\w']+)+", name)}
    for path in files("specs/**/*.antt", "proofs/**/*.antt", "src/**/*.rt"):
        for line in open(path, encoding="utf-8"):
            if "use " in line:
                names |= set(SHORT.findall(line))
                if "use Rattle.std." in line:
                    library |= set(re.findall(r"[\w'-]+", line))
    return names - library


def turned(line, names, mark):
    """The line with every name respelled; in a comment of src/ none, in another one a word of prose only where it begins a row of a table."""
    at = line.find(mark)
    code, said = (line, "") if at < 0 else (line[:at], line[at:])
    code = names.sub(lambda m: spelled(m[0]), code)
    if said:
        said = names.sub(lambda m: m[0] if m[0] in PROSE and not re.match(r"-- {4,}$", said[:m.start()]) else spelled(m[0]), said) if mark == "--" else said
    return code + said


def main():
    own = own_names()
    if not own:
        return
    names = re.compile(f"(?<!{EDGE})(?:" + "|".join(sorted(map(re.escape, own), key=len, reverse=True)) + f")(?!{EDGE})")
    taken = {}
    for name in own:
        taken.setdefault(spelled(name), []).append(name)
    for new, old in sorted(taken.items()):
        if len(old) > 1:
            print("fall together:", new, old)
    for mark, paths in (("--", files("specs/**/*.antt", "proofs/**/*.antt")), ("//", files("src/**/*.rt"))):
        for path in paths:
            text = open(path, encoding="utf-8").read()
            new = "".join(turned(line, names, mark) for line in text.splitlines(keepends=True))
            for old, word in WORDS.get(path, {}).items():
                new = re.sub(f"(?<!{EDGE}){old}(?!{EDGE})", word, new)
            if new != text:
                open(path, "w", encoding="utf-8").write(new)
    for name in sorted(own):
        print(name, "->", spelled(name))


if __name__ == "__main__":
    sys.exit(main())
