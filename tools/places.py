#!/usr/bin/env python3
"""Lists places in crates/*/src that could have a form of today's language: `tools/places.py [POINT]`, at the top.

A line for each place, and a count for each point. It goes by the text alone, so a place is one to look at:
docs/DESIGN-PASS.md says what became of each.
"""

import os
import re
import sys

# For each point: its name, and a pattern over one line of code (comments and tests left out).
PATTERNS = {
    "1": [
        ("a result within a result", r"Result<Result<|Ok\(Err\(|Ok\(Ok\("),
        ("a match or a test that only hands on", r"^\s*(None|Err\((_|\w+)\)) => (return\b|None\b|Err\(|Ok\(Err|Ok\(Report)"
                                                 r"|^\s*(if let Err\(\w+\) = .*|if .*is_err\(\)) \{"),
        ("a number for a kind", r"^\s*[0-9] => .*[({]|=> [0-9]+,$"),
        ("an enum of two, of a value each", None),
    ],
    "3": [
        ("a loop over a range", r"\bfor \w+ in [^{]*\.\."),
        ("a while loop", r"^\s*while "),
    ],
    "4": [
        ("a conversion, comparison or copy by a function of its own",
         r"\bfn (equals|same_posted|clone|number|number_of|byte|from_byte|of_number|challenge_of|read_kind|read_line|"
         r"read_four_bytes|entries_of|word_of|is_one|member_of)\b"),
        ("an impl of a comparison or copy by hand", r"^impl.* (Clone|PartialEq|Eq|PartialOrd|Ord|Default|Copy) for "),
    ],
    "6": [
        ("a table of fixed size", r"\[(u8|Half); 64\]"),
        ("a place in a buffer beside it", r"^\s*(start|at|first|end): usize,|, (start|at): usize"),
    ],
    "7": [
        ("a switch on a kind that calls one function at each",
         r"^\s*(Ok\()?(\w+::)?(ResiduesModulo23|BinaryPolynomials|Chain|Butterfly)(\(\w+\))?\)? => .*[({]"
         r"|^\s*[12] => (answer|print|match|\{)|if listing"),
    ],
}


def code(path):
    """The lines of a file with comments and the tests behind `#[cfg(test)] mod` blanked."""
    kept = True
    for number, line in enumerate(open(path, encoding="utf-8"), 1):
        yield number, re.sub(r"//.*", "", line.rstrip("\n")) if kept else ""


def sources():
    for folder, folders, files in os.walk("crates"):
        folders[:] = sorted(f for f in folders if f not in ("out", "specs", "proofs", "must-fail", "data"))
        for name in sorted(files):
            if name.endswith(".rt") and name != "tests.rt":
                yield os.path.join(folder, name)


def enums_of_two():
    """Enums of just two variants, each with one value."""
    for path in sources():
        text = "\n".join(line for _, line in code(path))
        for found in re.finditer(r"enum (\w+)(<[^{]*>)? \{([^}]*)\}", text):
            variants = [v.strip() for v in found.group(3).split(",") if v.strip()]
            if len(variants) == 2 and any("(" in v for v in variants):
                yield path, text[: found.start()].count("\n") + 1, found.group(0).split("{")[0].strip()


def parameter_groups():
    """Sets of three or more parameters that stand together in the signatures of three or more functions of a crate."""
    signatures = {}
    for path in sources():
        text = "\n".join(line for _, line in code(path))
        for found in re.finditer(r"\bfn (\w+)[^(]*?(?:<[^(]*>)?\(([^)]*)\)", text):
            names = frozenset(re.findall(r"(?:^|,)\s*(?:mut )?([a-z_]\w*):", found.group(2))) - {"self"}
            signatures.setdefault(path.split("/")[1], []).append((found.group(1), names))
    seen = {}
    for crate, functions in signatures.items():
        shared = {a & b for _, a in functions for _, b in functions if len(a & b) >= 3}
        held = {names: [name for name, all_names in functions if names <= all_names] for names in shared}
        for names, by in held.items():
            larger = any(names < others and held[others] == by for others in held)
            if len(by) >= 3 and not larger:
                seen[(crate, *sorted(names))] = by
    return seen


def repeated_requires():
    """A `requires` that stands in three or more functions, up to the names of what it speaks of."""
    seen = {}
    for path in sources():
        text = "\n".join(line for _, line in code(path))
        for found in re.finditer(r"requires(?: \w+)? \{ (.*) \}$", text, re.M):
            clause = re.sub(r"\b(self|board|buffer|settings|row|items|table)\b", "x", found.group(1))
            seen.setdefault(clause, []).append(path)
    return {clause: paths for clause, paths in seen.items() if len(paths) >= 3}


def main():
    wanted = sys.argv[1:]
    for point, kinds in PATTERNS.items():
        if wanted and point not in wanted:
            continue
        for kind, pattern in kinds:
            if pattern is None:
                places = list(enums_of_two())
            else:
                places = [(path, number, line.strip()) for path in sources() for number, line in code(path) if re.search(pattern, line)]
            print(f"== point {point}: {kind}: {len(places)}")
            for path, number, line in places:
                print(f"{path}:{number}: {line[:110]}")
    if not wanted or "5" in wanted:
        groups = parameter_groups()
        print(f"== point 5: parameters that travel together: {len(groups)} groups, {sum(map(len, groups.values()))} functions")
        for group, functions in groups.items():
            print(f"({', '.join(group)}): {len(functions)}: {' '.join(functions)}")
        clauses = repeated_requires()
        print(f"== point 5: a requires of three or more functions: {len(clauses)} clauses, {sum(map(len, clauses.values()))} functions")
        for clause, paths in clauses.items():
            print(f"{len(paths)} times: {clause[:120]}")


if __name__ == "__main__":
    main()
