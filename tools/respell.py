#!/usr/bin/env python3
"""Brings the repository's own names of definitions, fields and lemmas to one spelling: words in snake case, types and
facts in upper camel case with neither - nor _. Two words that are facts (FACTS) become names of facts, and getD in a
lemma's name becomes get_or, as the library calls that function today. Run once, at the top of the repository, after the
toolchain's own script for an older repository.

A name is the repository's own if an .antt file declares it. Names that Rattle makes (goals, steps of a proof), names that
the library has too, strings and comments stay as they are.
"""
import os
import re
import sys

NAME = re.compile(r"[\w'◌₀-₉-]+")
DECLARED = re.compile(
    r"^[ ]*(?:(?:abbrev|unfoldable|pub|record|data|ruleset)\s+)*([\w'◌₀-₉-]+)\s*(?:[({][^\n]*)?\s*:\s(.*)$", re.M)
IMPORT = re.compile(r"^(?:ghost )?use ([\w.'«»+-]+)\.\{([^}]*)\}", re.M)
# facts that were spelled as words, and the crates whose files mean the fact by the word
FACTS = {"answered": ("Answered", ("equivalence", "board")), "goes_on": ("GoesOn", ("roundfile",))}


def files():
    for top, folders, names in os.walk("crates"):
        folders[:] = sorted(f for f in folders if f not in ("out", "target"))
        for name in sorted(names):
            if name.endswith((".rt", ".antt")):
                yield os.path.join(top, name)


def is_own_crate(path):
    parts = path.split(".")
    return len(parts) > 1 and parts[0] == "Rattle" and os.path.isdir(os.path.join("crates", parts[1]))


def respelled(name):
    if name in FACTS:
        return FACTS[name][0]
    if "◌" in name or not re.search(r"[-A-Z]", name):
        return name
    if name[0].isupper() and re.search(r"[a-z]", name):
        return "".join(part[:1].upper() + part[1:] for part in re.split("[-_]", name))
    name = name.replace("getD", "get_or")
    name = re.sub(r"([a-z])([A-Z])", lambda m: m.group(1) + "_" + m.group(2).lower(), name)
    return name.replace("-", "_")


def main():
    own, made, library, fields = set(), set(), set(), set()
    texts = {}
    for path in files():
        with open(path, encoding="utf-8") as f:
            texts[path] = f.read()
        bare = re.sub(r"--.*" if path.endswith(".antt") else r"//.*", "", texts[path])
        for m in IMPORT.finditer(bare):
            if not is_own_crate(m.group(1)):
                library.update(x.split(" as ")[0].strip() for x in m.group(2).split(","))
        if path.endswith(".antt"):
            for m in DECLARED.finditer(bare):
                (made if m.group(2).startswith("goal.") else own).add(m.group(1))
            for m in re.finditer(r"\brecord [^\n]*where\n((?:[ ]+[^\n]*\n|\n)*)", bare):
                fields.update(x.group(1) for x in DECLARED.finditer(m.group(1)))
            fields.update(m.group(1) for m in re.finditer(r"^\s+pub ([\w'-]+) :", bare, re.M))
    turned = {n: respelled(n) for n in own - made - library if respelled(n) != n}
    taken = set(own) | library
    for name, to in sorted(turned.items()):
        if to in taken:
            print(f"falls together: {name} -> {to}", file=sys.stderr)
        taken.add(to)
    for path, text in texts.items():
        antt = path.endswith(".antt")
        steps = antt and re.search(r"/proofs/(?:.*/)?(Answers|Invariants|Proof)\.antt$", path)
        out = []
        for line in text.split("\n"):
            cut = re.search(r"(^|\s)--(\s|$)" if antt else r"//", line)
            head, tail = (line[:cut.start()], line[cut.start():]) if cut else (line, "")

            def put(m, head=head, path=path):
                name = m.group(0)
                if name not in turned:
                    return name
                if head.count('"', 0, m.start()) % 2:
                    return name
                if name in FACTS and path.split("/")[1] not in FACTS[name][1]:
                    return name
                before = head[:m.start()]
                if steps and before.endswith(".") and name not in fields:
                    return name
                return turned[name]

            out.append(NAME.sub(put, head) + tail)
        new = "\n".join(out)
        if new != text:
            with open(path, "w", encoding="utf-8") as f:
                f.write(new)
    print(f"{len(turned)} names respelled")


main()
