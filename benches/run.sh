#!/usr/bin/env bash
# run.sh NAME [WORD..]: builds the program benches/programs/NAME (build.sh) in a temporary folder, and runs it.
set -eu
here=$(cd "$(dirname "$0")" && pwd)
name=$1
shift
folder=$(mktemp -d)
trap 'rm -rf "$folder"' EXIT
"$here/build.sh" "$name" "$folder"
"$folder/$name" "$@"
