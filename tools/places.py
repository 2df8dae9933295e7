#!/usr/bin/env python3
"""Lists the places in crates/*/src that a pass over the design looks at, point by point.

usage: tools/places.py [POINT ..]     at the top of the repository; all points without one

It reads text and judges nothing: a row is a place to look at. docs/DESIGN-PASS.md says what became of each.
"""
import collections
import pathlib
import re
import sys

FILES = sorted(pathlib.Path("crates").glob("*/src/**/*.rt"))
TEXT = {path: path.read_text().split("\n") for path in FILES}


def lines(pattern, tests=False):
    """Each line that matches, with its place; tests are left out."""
    wanted = re.compile(pattern)
    for path, text in TEXT.items():
        if not tests and (path.name == "tests.rt" or "trials/src" in str(path)):
            continue
        for number, line in enumerate(text, 1):
            if wanted.search(line) and not line.lstrip().startswith("//"):
                yield f"{path}:{number}: {line.strip()}"


def heads():
    """Each function's name, its parameters, and its clauses, by crate and file."""
    head = re.compile(r"\bfn (\w+)(?:<[^(]*>)?\(")
    for path, text in TEXT.items():
        i = 0
        while i < len(text):
            found = head.search(text[i])
            if not found or text[i].lstrip().startswith(("//", "ghost")):
                i += 1
                continue
            signature = text[i]
            i += 1
            clauses = []
            while i < len(text) and not signature.rstrip().endswith((";", "{", "{}")):
                line = text[i].strip()
                if line.startswith(("requires", "ensures")):
                    clauses.append(line)
                elif line in ("{", "{}"):
                    break
                else:
                    signature += " " + line
                i += 1
            yield path, found.group(1), signature, clauses


def point1():
    """Enums of the shape of Option or Result, flags, numbers for kinds or refusals."""
    yield from lines(r"^\s*(pub(\(crate\))? )?enum ")
    yield from lines(r"^\s*(pub(\(crate\))? )?\w+: bool,")
    yield from lines(r"const \w+: u(8|16) = |\bkind: u\d+|-> Result<[\w()]+, u\d+>|-> Option<u8>")
    for path, name, signature, _ in heads():
        if re.search(r"-> (u8|u16|bool)$", signature.rstrip(" {")) and ("&mut" in signature or name == "number"):
            yield f"{path}: fn {name} -> {signature.rstrip(' {').split('-> ')[-1]}"


def point2():
    """Functions of one name in two crates, and bodies of the same shape."""
    named = collections.defaultdict(set)
    for path, name, signature, _ in heads():
        if "&self" not in signature and "&mut self" not in signature and name not in ("new", "run", "main"):
            named[name].add(str(path))
    for name, where in sorted(named.items()):
        if len(where) > 1:
            yield f"fn {name}: {', '.join(sorted(where))}"
    yield "and the rows of: duplicates --repo crates --most 200 (those with both sides in src/)"


def point3():
    """Loops over a range of numbers, and while loops."""
    yield from lines(r"\bfor \w+ in [^{]*\.\.|\bwhile (?!let\b)|^\s*loop \{")


def point4():
    """Conversions, comparison and printing by hand."""
    yield from lines(r"\bas (u8|u16|u32|u64|u128|usize)\b")
    yield from lines(r"from_be_bytes|/ 0x100|% 0x100|\* 0x100")
    yield from lines(r"fn (show|print|is|has|same|refuse)\w*(<[^(]*>)?\(")
    yield from lines(r"Err\(\w+\) => Err\(|Ok\(\w+\) => Ok\(|None => Err\(|None => return Err")


def point5():
    """Clauses in three or more contracts, and parameters together in three or more signatures."""
    clauses = collections.defaultdict(list)
    pairs = collections.defaultdict(list)
    for path, name, signature, found in heads():
        crate = path.parts[1]
        for clause in found:
            fact = re.sub(r"^(requires|ensures) ?\w* ?", "", clause)
            clauses[crate, fact].append(name)
        inside = re.search(r"\((.*)\)", signature.replace("pub(crate) ", ""))
        typed = re.findall(r"(\w+): ([&'\w<>\[\]; ]+)", inside.group(1)) if inside else []
        kinds = [f"{one}: {kind}" for one, kind in typed if kind.strip() != "&HostRuntime"]
        for i, one in enumerate(kinds):
            for other in kinds[i + 1:]:
                pairs[crate, one, other].append(name)
    for (crate, fact), names in clauses.items():
        if len(names) > 2:
            yield f"{crate}: {len(names)} clauses {fact}: {', '.join(names)}"
    for (crate, one, other), names in pairs.items():
        if len(names) > 2:
            yield f"{crate}: {len(names)} signatures ({one}, {other}): {', '.join(names)}"


def point6():
    """Arrays as fields, and fields that count or place what another holds."""
    yield from lines(r"^\s*(pub(\(crate\))? )?\w+: \[[^&]*; [^\]]*\],")
    yield from lines(r"^\s*(pub(\(crate\))? )?(count|used|length|len|place|at|filed): (usize|u32|u8),")
    yield from lines(r"\bbase: usize\b|\bat: usize\b")


def point7():
    """Dispatch on a kind, and tables of functions."""
    yield from lines(r"match (kind|\*?byte|command|call|act)\b|if kind ==|Some\(b'|\bdyn\b|fn\(")


def point8():
    """Tactics in src/, and the lines of proofs by crate."""
    yield from lines(r"Prim\.|\b(omega|search|grind|simp) \(|\b(omega|search|grind) \w")
    for crate in sorted(pathlib.Path("crates").iterdir()):
        proofs = list(crate.glob("proofs/**/*.antt"))
        if proofs:
            size = sum(len(p.read_text().split("\n")) - 1 for p in proofs)
            answers = sum(len(re.findall(r"^\S+ .*=", p.read_text(), re.M)) for p in proofs if p.name in ("Answers.antt", "Invariants.antt"))
            yield f"{crate.name}: {size} lines of proofs, {answers} answers and invariants"


POINTS = [point1, point2, point3, point4, point5, point6, point7, point8]


def main(wanted):
    for number, point in enumerate(POINTS, 1):
        if wanted and str(number) not in wanted:
            continue
        rows = list(point())
        print(f"{number}. {point.__doc__} {len(rows)} rows")
        for row in rows:
            print("   ", row)


main(sys.argv[1:])
