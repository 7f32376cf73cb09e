#!/usr/bin/env python3
"""Brings the names of specs/ and proofs/ to today's spelling, after /opt/rattle/port/port.py: words in snake case, facts in camel case.

Run it once, at the top of the repository. It renames what a file of specs/ or proofs/ defines, wherever clauses, specs, proofs or backticks of a page name it. In proofs and binders a name of src/ gets the spelling that it has there, as how_many, also as a part of a goal's name. Functions of src/, strings and must-fail edits keep their names. It stops where two names would fall together, and changes nothing then.
"""
import collections
import glob
import re
import sys

LOCAL = r"(?:(?:abbrev|unfoldable)\s+)?(?:pub\s+)?(?:record\s+|data\s+)?"
HEAD = re.compile(r"^\s*" + LOCAL + r"([A-Za-z][^\s:({=,.;]*)((?:\s*(?:\([^)]*\)|\{[^}]*\}))*)\s+:(?:\s|$)")
WORD = re.compile(r"(?<![\w'₁-])[A-Za-z][\w'₁]*(?:-[\w'₁]+)+(?![\w'₁-])")
GOALS = ("Answers.antt", "Invariants.antt")
# what goals are named after besides the code's own names: methods of std, and the prover's words
MADE = ("is_some", "is_empty", "is_ascii_digit", "into_iter", "in_default", "in_ok", "in_err", "invariant_of", "type_inv", "overflow_add", "overflow_cast")


def spelled(name):
    if name[0].isupper():
        return "".join(part[:1].upper() + part[1:] for part in name.split("-"))
    return name.replace("-", "_")


def read(path):
    with open(path, encoding="utf-8") as f:
        return f.read()


def defined(paths):
    names = collections.defaultdict(set)
    for path in paths:
        for line in read(path).splitlines():
            m = HEAD.match(line)
            if m and not line.lstrip().startswith(("use ", "--", "let ", "λ")):
                names[m.group(1)].add(path)
    return names


def own(names):
    """What is renamed: a name with a dash that some file other than a goal's answers defines."""
    chosen = {}
    for name, paths in names.items():
        lemmas = [p for p in paths if not p.endswith(GOALS)]
        local = [p for p in paths if p.endswith(GOALS) and not re.search(r"(?m)^(?:abbrev\s+)?pub\s+" + re.escape(name) + r"\s+:\s+goal\.", read(p))]
        if "-" in name and (lemmas or local):
            chosen[name] = spelled(name)
    return chosen


def clashes(chosen, names, paths):
    back = collections.Counter(chosen.values())
    for name, new in chosen.items():
        if back[new] > 1 or new in names:
            yield f"{name} and another name are both {new}"
    for path in paths:
        text = read(path)
        used = {n for n in chosen if n in WORD.findall(text)}
        libs = "\n".join(l for l in text.splitlines() if re.match(r"\s*(ghost )?use (Rattle\.std|mathlib|borrow)", l))
        for name in used:
            if re.search(r"(?<![\w'-])" + re.escape(chosen[name]) + r"(?![\w'-])", libs):
                yield f"{path}: {chosen[name]} is a library's name too"


def turned(line, chosen, ticks):
    def word(m):
        return chosen.get(m.group(0), m.group(0))

    if ticks:
        return re.sub(r"`[^`]*`", lambda m: WORD.sub(word, m.group(0)), line)
    return WORD.sub(word, line)


def source_names(paths):
    """The dashed spellings of names of src/ that have an underscore."""
    found = set(MADE)
    for path in paths:
        for line in read(path).splitlines():
            if not re.match(r"\s*(//|ghost\b|requires\b|ensures\b)", line):
                found |= set(re.findall(r"(?<![\w'])[A-Za-z][A-Za-z0-9]*(?:_[A-Za-z0-9]+)+(?![\w'])", line))
    return sorted(((n.replace("_", "-"), n) for n in found), key=lambda p: -len(p[0]))


def made(word, sources):
    for dashed, name in sources:
        word = re.sub(r"(?<![^-])" + re.escape(dashed) + r"(?![^-])", name, word)
    return word


def rewritten(path, chosen, sources):
    out = []
    for line in read(path).splitlines(keepends=True):
        mark = "--" if path.endswith(".antt") else "//"
        if path.endswith(".antt") and not line.lstrip().startswith(mark):
            if path.endswith(GOALS) and not re.match(r"use (?!Rattle\.\w+\.proofs\..*Goals)", line):
                line = re.sub(r"((?<=\.)|(?<=pub ))" + WORD.pattern, lambda m: made(m.group(0), sources), line)
                line = re.sub(r"^[a-z][\w'-]*(?= (?:\w+ )?[cl] =|$)", lambda m: made(m.group(0), sources), line)
            line = re.sub(r"(?<![\w.'-])how-many(?![\w'-])", "how_many", line)
        if path.endswith(".md"):
            out.append(turned(line, chosen, True))
            continue
        at = line.find(mark) if line.lstrip().startswith(mark) else -1
        if path.endswith(".rt") and '"' in line and not re.match(r"\s*(ghost|requires|ensures)\b", line):
            out.append(line)
        else:
            out.append(turned(line, chosen, at >= 0))
    return "".join(out)


def main():
    antt = sorted(glob.glob("crates/*/specs/**/*.antt", recursive=True) + glob.glob("crates/*/proofs/**/*.antt", recursive=True))
    rest = sorted(glob.glob("crates/*/src/**/*.rt", recursive=True))
    pages = sorted(glob.glob("docs/*.md") + ["README.md", "CONTRIBUTING.md"])
    names = defined(antt)
    chosen = own(names)
    wrong = sorted(clashes(chosen, names, antt + rest))
    if wrong:
        print("\n".join(wrong), file=sys.stderr)
        return 1
    changed = 0
    sources = source_names(rest)
    for path in antt + rest + pages:
        new = rewritten(path, chosen, sources)
        if new != read(path):
            changed += 1
            with open(path, "w", encoding="utf-8") as f:
                f.write(new)
    print(f"respell: {len(chosen)} names, {changed} files")
    return 0


if __name__ == "__main__":
    sys.exit(main())
