#!/usr/bin/env bash
# all.sh [--small] [PARCEL_TOOL [PROGRAMS [FOLDER]]]: runs every benchmark that docs/performance.md tells of up to
# "Many cities", one behind the other, with the built parcel_tool and what prepare.sh makes in the folder PROGRAMS,
# and writes what each prints to a file of FOLDER, and to `seconds` how long each took: some fourteen minutes on four
# quiet processors. Nothing else should run meanwhile. Where it is left out, PARCEL_TOOL is what the gate leaves in
# crates, PROGRAMS is out/bench_programs and FOLDER is out/benches. What takes --workers is run with one, two and four.
# With --small all of it runs once over small layers, and makes what is missing of those alone: the numbers are worth
# nothing, but whatever fails then fails before the machine was made quiet.
set -eu
here=$(cd "$(dirname "$0")" && pwd)
part=whole
if [ "${1:-}" = --small ]; then part=small && shift; fi
tool=$(realpath "${1:-$here/../crates/parcel_tool/out/parcel_tool}")
mkdir -p "${2:-$here/../out/bench_programs}" "${3:-$here/../out/benches}"
programs=$(realpath "${2:-$here/../out/bench_programs}") to=$(realpath "${3:-$here/../out/benches}")
export BENCH_INPUTS=$programs/inputs

measure() {
    local name=$1 begun=$SECONDS status=0
    shift
    "$@" > "$to/$name" 2>&1 || status=$?
    echo "$name $((SECONDS - begun)) status $status" | tee -a "$to/seconds"
}

whole() {
    "$here/prepare.sh" "$programs" > "$to/prepared"
    measure area python3 "$here/area.py" "$tool" --runs 7
    measure tiling python3 "$here/tiling.py" "$tool" --export --runs 3 --only city --without T wrong
    measure zoning python3 "$here/zoning.py" "$tool" --pairs "$programs/bench_overlay" --runs 3 --only city stairs
    measure zone_areas /usr/bin/python3 "$here/zone_areas.py" "$tool" --runs 4
    measure locate python3 "$here/locate.py" --ours "$programs/bench_locate" --runs 2
    measure edits python3 "$here/edits.py" --ours "$programs/bench_edits" --runs 3
    measure office python3 "$here/office.py" --ours "$programs/bench_office" --runs 2 --only pairs locate "many M"
    measure sessions python3 "$here/sessions.py" "$tool" --office "$programs/bench_office" --runs 2
    measure layers python3 "$here/layers.py" --ours "$programs/bench_layers"
    measure rings python3 "$here/rings.py" --ours "$programs/bench_rings"
    measure overlap python3 "$here/overlap.py" --ours "$programs/bench_overlap" --runs 2
    measure hostile python3 "$here/tiling.py" "$tool" --runs 1 --only strips cut zigzags spirals arcs
    measure nodes python3 "$here/nodes.py" --ours "$programs/bench_nodes" --runs 2 --only crossed "directions, 244"
    # each in one process on a processor of its own, since the second takes some five minutes
    local alone=(python3 "$here/nodes.py" --ours "$programs/bench_nodes" --runs 1 --limit 300 --only)
    measure lattices "${alone[@]}" "lattices, 244" &
    measure band "${alone[@]}" "lattices, band, 244"
    wait
}

small() {
    measure area python3 "$here/area.py" "$tool" --runs 1 --size S
    measure tiling python3 "$here/tiling.py" "$tool" --export --runs 1 --only "city S" --without T
    measure zoning python3 "$here/zoning.py" "$tool" --pairs "$programs/bench_overlay" --runs 1 --only "city S"
    measure zone_areas /usr/bin/python3 "$here/zone_areas.py" "$tool" --runs 1 --size S
    measure locate python3 "$here/locate.py" --ours "$programs/bench_locate" --runs 1 --only "city S"
    measure edits python3 "$here/edits.py" --ours "$programs/bench_edits" --runs 1 --count 100 --long 0 --only "city S"
    measure office python3 "$here/office.py" --ours "$programs/bench_office" --runs 1 --count 100 --only "pairs S"
    measure sessions python3 "$here/sessions.py" "$tool" --office "$programs/bench_office" --runs 1 --size S \
        --count 100 --points 1000
    measure layers python3 "$here/layers.py" --ours "$programs/bench_layers" --rounds 1 --sizes S
    measure rings python3 "$here/rings.py" --ours "$programs/bench_rings" --sizes 16
    measure overlap python3 "$here/overlap.py" --ours "$programs/bench_overlap" --runs 1 --sizes 16
    measure nodes python3 "$here/nodes.py" --ours "$programs/bench_nodes" --runs 1 --only "city S" "lattices, band, 12"
}

: > "$to/seconds"
{ date; uptime; nproc; grep -m 1 "model name" /proc/cpuinfo; sha256sum "$tool"; } > "$to/machine"
$part
uptime >> "$to/machine"
! grep -qv 'status 0$' "$to/seconds"
