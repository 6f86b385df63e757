#!/usr/bin/env python3
"""Lists the numbers above 64 that stand at more than one place in crates/*/src and crates/*/specs.

Comments, texts between quotes and crates of tests are left out. A rule's number stands once, as a named constant that code,
clauses and definitions cite; equal numbers of several rules in the file of these constants count as one place. The exit
status is 1 where some number is listed.
"""
import collections
import re
import sys
from pathlib import Path

ROOT = Path(__file__).resolve().parent.parent / "crates"
CONSTANTS = "vec_base/src/limits.rt"
NUMBER = re.compile(r"(?<![\w.'])(\d[\d_]*)(?:u8|u16|u32|u64|usize|i64)?(?![\w'])")
TEXT = re.compile(r'b?"(?:[^"\\]|\\.)*"|b?\'(?:[^\'\\]|\\.)\'')
COMMENT = {".rt": re.compile(r"//.*"), ".antt": re.compile(r"--.*")}


def files():
    for crate in sorted(path for path in ROOT.iterdir() if not path.name.endswith("_tests")):
        for part, suffix in (("src", ".rt"), ("specs", ".antt")):
            yield from sorted(path for path in (crate / part).rglob(f"*{suffix}") if "tests" not in path.stem)


def main():
    places = collections.defaultdict(list)
    for path in files():
        tests = False
        for number, line in enumerate(path.read_text().splitlines(), 1):
            tests = tests or line.startswith("#[cfg(test)]")
            if tests:
                break
            for found in NUMBER.findall(COMMENT[path.suffix].sub("", TEXT.sub("", line))):
                value = int(found.replace("_", ""))
                if value > 64:
                    name = str(path.relative_to(ROOT))
                    place = name if name == CONSTANTS else f"{name}:{number}"
                    if place not in places[value]:
                        places[value].append(place)
    twice = {value: where for value, where in sorted(places.items()) if len(where) > 1}
    for value, where in twice.items():
        print(f"{value:,}: {', '.join(where)}")
    return 1 if twice else 0


if __name__ == "__main__":
    sys.exit(main())
