#!/bin/sh
# Two misuses of the honest comparator must not build: a second answer from one commitment, and a commitment
# before the outputs are made. Each is an edit of a file; the compiler has to refuse the edited crate. (They are
# no must-fail edits of the gate: those have to reach the prover, and these do not even compile.)
# Run from the repository's folder. Prints a line for each, and ends with status 1 where one builds.
status=0
for edit in compare/misuse/*.edit; do
    copy=$(mktemp -d)
    tar c --exclude=out crates crates.txt | tar x -C "$copy"
    EDIT=$edit COPY=$copy python3 - <<'PY'
import os
fields = dict(line.rstrip("\n").split(": ", 1) for line in open(os.environ["EDIT"]))
path = os.path.join(os.environ["COPY"], fields["file"])
text = open(path).read()
assert text.count(fields["old"]) == 1, "the text to edit does not stand once in " + fields["file"]
open(path, "w").write(text.replace(fields["old"], fields["new"]))
PY
    said=$(cd "$copy/crates/prover" && rt check 2>&1 | grep -o 'error\[[a-z0-9-]*\]: [^:]*' | head -1)
    if [ -n "$said" ]; then
        echo "$(basename "$edit" .edit): refused by the compiler: $said"
    else
        echo "$(basename "$edit" .edit): BUILT"
        status=1
    fi
    rm -rf "$copy"
done
exit $status
