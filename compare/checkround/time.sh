#!/bin/sh
# Times checkround beside plain Rust on some of the longest round files; timing.py says what is printed.
# Run from the repository's folder: time.sh [PROGRAM [RUNS]]. PROGRAM is crates/checkround/out/checkround by default.
set -e
here=$(dirname "$0")
folder=$(mktemp -d)
trap 'rm -r "$folder"' EXIT
rustc --edition 2021 -O -C opt-level=3 -o "$folder/plain" "$here/plain/main.rs"
python3 "$here/timing.py" "${1:-crates/checkround/out/checkround}" "$folder/plain" "${2:-200}"
