#!/usr/bin/env python3
"""Lists the files that the promise of `run` rests on, lowest first, each with its first line.

It begins at the clauses of crates/vec_shell/src/top.rt and follows what each file of specs/ brings in. A file whose
definitions are brought in only by files of that list is in it; a type of src/ is named by the module that declares it.
"""
import re
from pathlib import Path

ROOT = Path(__file__).resolve().parent.parent / "crates"
START = ROOT / "vec_shell/src/top.rt"
USE = re.compile(r"^\s*(?:ghost )?use Rattle\.(\w+)\.specs\.([\w.]+?)(?:\.\{[^}]*\}| as \w+)?;?\s*$")


def brought_in(path):
    """The files of this repository that a file brings in, in the order of its lines."""
    for line in path.read_text().splitlines():
        found = USE.match(line)
        if not found or not (ROOT / found[1]).is_dir():
            continue
        crate, words = ROOT / found[1], found[2].split(".")
        if words[0] == "declared":
            module = crate / "src" / (words[1] + ".rt")
            yield module if module.exists() else crate / "src/lib.rt"
        else:
            yield crate / "specs" / ("/".join(words) + ".antt")


def ordered(path, seen, order):
    if path in seen:
        return
    seen.add(path)
    if path.suffix == ".antt" or path == START:
        for other in brought_in(path):
            ordered(other, seen, order)
    order.append(path)


def first_line(path):
    line = path.read_text().splitlines()[0]
    return re.sub(r"^(--|//!)\s*", "", line)


def main():
    order = []
    ordered(START, set(), order)
    for path in order:
        print(f"{path.relative_to(ROOT)}: {first_line(path)}")


if __name__ == "__main__":
    main()
