#!/usr/bin/env bash
# check.sh: proves and builds every program of programs/, so that none is left behind by a change of the crates. It is
# no part of the gate, which it would lengthen by an hour.
set -eu
here=$(cd "$(dirname "$0")" && pwd)
folder=$(mktemp -d)
trap 'rm -rf "$folder"' EXIT
for program in "$here"/programs/*/; do
    name=$(basename "$program")
    "$here/build.sh" "$name" "$folder"
    echo "$name: proved and built"
done
