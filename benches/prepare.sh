#!/usr/bin/env bash
# prepare.sh [PROGRAMS]: makes in the folder PROGRAMS (out/bench_programs) all that all.sh measures with and that is not
# there yet: the programs of programs/ (build.sh, which proves them: up to an hour), those of others in C and C++, and
# the layers, some 400 MB. Wants Debian's gcc, g++, libgeos-dev, libboost-dev, gdal-bin and python3-shapely.
set -eu
here=$(cd "$(dirname "$0")" && pwd)
mkdir -p "${1:-$here/../out/bench_programs}"
programs=$(realpath "${1:-$here/../out/bench_programs}")
for name in bench_layers bench_rings bench_nodes bench_locate bench_edits bench_overlay bench_office bench_overlap; do
    [ -x "$programs/$name" ] || "$here/build.sh" "$name" "$programs"
done
BENCH_INPUTS=$programs/inputs exec python3 "$here/prepare.py"
