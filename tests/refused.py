#!/usr/bin/env python3
"""Programs that must not build: each edit of tests/refused/ is made in a copy, which the compiler must refuse with its error:  tests/refused.py

An edit is a file like those of crates/NAME/must-fail, with two lines more: the crate, and the error that is wanted. These errors come
before any proof, so rt tries such an edit as a must-fail edit no longer.
"""
import pathlib
import shutil
import subprocess
import sys
import tempfile

TOP = pathlib.Path(__file__).resolve().parent.parent


def edit(path):
    """The crate, the error that is wanted, the file, and the texts."""
    fields = dict(line.split(": ", 1) for line in path.read_text().splitlines() if line)
    return fields["crate"], fields["error"], fields["file"], fields["old"], fields["new"]


def tried(folder):
    done = subprocess.run(["rt", "try"], cwd=folder, capture_output=True, text=True)
    return done.returncode, done.stdout + done.stderr


def main():
    edits = sorted((TOP / "tests/refused").glob("*.edit"))
    if not edits:
        sys.exit("refused: no edits")
    with tempfile.TemporaryDirectory() as copy:
        shutil.copytree(TOP / "crates", pathlib.Path(copy) / "crates", ignore=shutil.ignore_patterns("out"))
        shutil.copy(TOP / "crates.txt", copy)
        for crate in sorted({edit(path)[0] for path in edits}):
            status, said = tried(pathlib.Path(copy) / "crates" / crate)
            if status != 0:
                sys.exit(f"refused: {crate} does not run as it stands\n{said}")
        for path in edits:
            crate, error, name, old, new = edit(path)
            folder = pathlib.Path(copy) / "crates" / crate
            text = (folder / name).read_text()
            if text.count(old) != 1:
                sys.exit(f"refused: the text of {path.name} does not stand once in {name}")
            (folder / name).write_text(text.replace(old, new))
            status, said = tried(folder)
            (folder / name).write_text(text)
            if status == 0 or f"error[{error}]" not in said:
                sys.exit(f"refused: {path.name} was to be refused with {error}\n{said}")
    print(f"refused: {len(edits)} programs do not build")


main()
