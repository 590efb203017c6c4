#!/bin/sh
# Times the listing and the routing of a butterfly of 64 wires: the proved program beside plain Rust (rustc -O).
# Run from the repository's folder after `rt run` in crates/route_bench. Prints, for each kind of work, the best of seven
# user times of each program and their ratio.
set -e
plain=$(mktemp)
rustc -O -o "$plain" compare/route_bench/main.rs
for work in list route; do
    WORK=$work PLAIN=$plain python3 - <<'PY'
import os, resource, subprocess
work, turns = os.environ["WORK"], 200000
def best(program):
    times = []
    for _ in range(7):
        before = resource.getrusage(resource.RUSAGE_CHILDREN).ru_utime
        out = subprocess.run([program], input=f"{work} {turns}\n", capture_output=True, text=True, check=True).stdout
        times.append(resource.getrusage(resource.RUSAGE_CHILDREN).ru_utime - before)
    return min(times), out
proved, a = best("crates/route_bench/out/route_bench")
plain, b = best(os.environ["PLAIN"])
assert a == b, (a, b)
print(f"{work}: proved {proved / turns * 1e6:.2f} us, plain {plain / turns * 1e6:.2f} us, ratio {proved / plain:.2f}")
PY
done
rm "$plain"
