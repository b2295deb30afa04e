#!/usr/bin/env bash
# build.sh NAME FOLDER: builds the program benches/programs/NAME over the crates of this repository, in a temporary
# folder, where its sources and proofs lose the ending .txt (the gate stops at an .rt file of no crate of its own),
# proves it as the gate would, and copies it to FOLDER. What earlier checks kept in crates/*/out is used where it is
# there. BENCH_JOBS says how many provers there are at most (2 where it is not set).
set -eu
here=$(cd "$(dirname "$0")" && pwd)
name=$1
mkdir -p "$2"
folder=$(cd "$2" && pwd)
room=$(mktemp -d)
trap 'rm -rf "$room"' EXIT
cp -r "$here/../crates.txt" "$here/../HANDLES" "$here/../crates" "$room/"
cp -r "$here/programs/$name" "$room/crates/$name"
find "$room/crates/$name" -name '*.txt' | while read -r text; do mv "$text" "${text%.txt}"; done
cat "$here/programs/$name/crates.line" >> "$room/crates.txt"
cd "$room/crates/$name"
rt run --jobs "${BENCH_JOBS:-2}" < /dev/null > "$room/log" 2>&1 || { tail -20 "$room/log" >&2; exit 1; }
cp "out/$name" "$folder/"
