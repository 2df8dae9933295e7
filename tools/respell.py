#!/usr/bin/env python3
"""Brings the definitions and lemmas of this repository to today's spelling.

Run once, at the top, right after the port's own script: types in camel case, everything else in snake case; in the
name of a lemma a dash stays where it joins two names. Functions of src/, exported names, strings, inputs and outputs
keep their names, and so do the names that Rattle makes of goals (they come from the check, file by file).
"""
import pathlib
import re
import sys

WORD = r"[A-Za-z0-9_'′≤<≡ℕ]+"
TOKEN = re.compile(r"(?<![A-Za-z0-9_'′ℕ-])[A-Za-zℕ]" + r"[A-Za-z0-9_'′≤<≡ℕ]*(?:-" + WORD + r")*")
DECLARED = re.compile(r"^(\s*)((?:(?:pattern|unfoldable|abbrev|pub|axiom)\s+)*)(record\s+|data\s+)?([A-Za-zℕ][^\s:(){}=,;]*)(.*)$")
MADE = re.compile(r":\s*(goal|Goals|given|goals)\.")

# words of the library after which lemmas are named here
LIBRARY = set("""length map take drop append replicate get_or slice_index set cond eqb leb and or not concat sum rev
all some none ok err add mul sub div mod le lt min max fold push suc zero""".split())

# two old names that would become one
APART = {}


def antt_files(top):
    for part in ("specs", "proofs"):
        yield from sorted(p for p in top.glob(f"crates/*/{part}/**/*.antt") if "out" not in p.parts)


def code_of(line, mark):
    """The line's text before its comment, and the comment."""
    at = 0
    quoted = False
    while at < len(line):
        if line[at] == '"' and mark == "//":
            quoted = not quoted
        if not quoted and line.startswith(mark, at) and (at == 0 or line[at - 1].isspace()):
            return line[:at], line[at:]
        at += 1
    return line, ""


def declarations(path):
    """Names that a file declares, each with whether it is a type."""
    lines = path.read_text().split("\n")
    for line in lines:
        text, _ = code_of(line, "--")
        found = DECLARED.match(text)
        if not found or MADE.search(text):
            continue
        indent, marks, kind, name, rest = found.groups()
        if name in ("use", "mod", "module", "record", "data", "let", "in", "unfolding"):
            continue
        if kind:
            yield name, True
        elif re.match(r"\s*:\s", rest):
            ends = re.search(r"(→|:)\s*Type\b[^→]*$", rest) is not None
            yield name, ends


def snake(name):
    return name.replace("-", "_").replace("′", "'")


def camel(name):
    parts = re.split(r"[-_]", name.replace("′", "'"))
    return "".join(p[:1].upper() + p[1:] for p in parts)


def lemma(name, types, names):
    """The name of a lemma: a dash between two names, `_` before a plain word."""
    words = re.split(r"[-_]", name.replace("′", "'"))
    parts = []
    at = 0
    while at < len(words):
        for end in range(len(words), at, -1):
            old = words[at:end]
            joined = "_".join(old)
            cased = camel("-".join(old))
            if joined[0].isupper() and cased in types:
                parts.append((cased, True))
                break
            if joined in names:
                parts.append((joined, True))
                break
        else:
            end = at + 1
            parts.append((words[at], False))
        at = end
    text = parts[0][0]
    for (_, before), (part, known) in zip(parts, parts[1:]):
        text += ("-" if before and known else "_") + part
    return text


def mapping(top):
    types, values, lemmas = set(), set(), set()
    for path in antt_files(top):
        stated = "specs" in path.parts[path.parts.index("crates"):]
        for name, is_type in declarations(path):
            if is_type:
                types.add(name)
            elif stated or path.name in ("Invariants.antt", "Choices.antt"):
                values.add(name)
            else:
                lemmas.add(name)
    lemmas -= values
    new = {}
    for name in types:
        if name[0].isupper() and ("-" in name or "_" in name or "′" in name):
            new[name] = camel(name)
        elif name[0].islower() and "-" in name:
            new[name] = snake(name)
    for name in values - types:
        if "-" in name or "′" in name:
            new[name] = snake(name)
    cased = {new.get(t, t) for t in types}
    named = {snake(v) for v in values} | LIBRARY
    for name in lemmas - types - values:
        if "-" in name or "′" in name:
            new[name] = lemma(name, cased, named)
    new.update(APART)
    return {old: to for old, to in new.items() if old != to}, types | values | lemmas


def turn(text, new):
    return TOKEN.sub(lambda m: new.get(m.group(0), m.group(0)), text)


def turn_lines(text, new, mark):
    out = []
    for line in text.split("\n"):
        code, comment = code_of(line, mark)
        if mark == "//":
            parts = re.split(r'("(?:[^"\\]|\\.)*")', code)
            code = "".join(p if p.startswith('"') else turn(p, new) for p in parts)
        else:
            code = turn(code, new)
        out.append(code + comment)
    return "\n".join(out)


def main():
    top = pathlib.Path(".")
    new, declared = mapping(top)
    seen = {}
    for old, to in sorted(new.items()):
        if to in seen:
            print(f"falls together: {old} and {seen[to]} as {to}")
        seen[to] = old
        if to in declared:
            print(f"falls together: {old} with {to}, which stands")
    if "--list" in sys.argv:
        for old, to in sorted(new.items()):
            print(f"{old}\t{to}")
        return
    for path in antt_files(top):
        was = path.read_text()
        now = turn_lines(was, new, "--")
        if now != was:
            path.write_text(now)
    for path in sorted(p for p in top.glob("crates/*/src/**/*.rt")):
        was = path.read_text()
        now = turn_lines(was, new, "//")
        if now != was:
            path.write_text(now)
    for path in sorted(top.glob("crates/*/must-fail/*.edit")):
        was = path.read_text()
        now = turn(was, new)
        if now != was:
            path.write_text(now)
    for path in [top / "README.md", *sorted(top.glob("docs/*.md"))]:
        was = path.read_text()
        now = re.sub(r"`[^`\n]+`", lambda m: turn(m.group(0), new), was)
        if now != was:
            path.write_text(now)


main()
