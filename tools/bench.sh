#!/usr/bin/env bash
# Times the library and stores what it took: tools/bench.sh run NAME MINUTES. Makes docs/BENCHMARKS.md and its pictures of what is
# stored under a name, beside the figures of a version before if one is named: tools/bench.sh report NAME [BEFORE].
set -u

cd "$(dirname "${BASH_SOURCE[0]}")/.." || exit 1
bench=rust/target/release/bench
stored=docs/benchmarks

build() {
    tools/prove.sh && cargo build --manifest-path rust/Cargo.toml --release --offline --locked --quiet --package bench &&
        tools/film-cargo.sh build --release --quiet
}

# Most of the time goes to lists; writing, reading and mending take about a minute in addition.
run() {
    local folder=$stored/$1 minutes=$2
    local setups=$(((minutes + 5) / 6))
    "$bench" machine "$folder" &&
        "$bench" calls out="$folder" &&
        "$bench" list minutes=$((minutes - setups)) out="$folder" &&
        "$bench" setups minutes="$setups" out="$folder" &&
        "$bench" tool film=rust/film/target/release/film out="$folder" &&
        echo "The figures are in $folder; 'make bench-report NAME=$1' makes docs/BENCHMARKS.md of them."
}

report() {
    local words=(now="$stored/$1" out=docs/BENCHMARKS.md)
    [ -z "${2:-}" ] || words+=(before="$stored/$2")
    tools/film-cargo.sh run --release --quiet --package plots -- "$PWD/$stored/$1" && "$bench" report "${words[@]}"
}

case ${1:-} in
    run) build && run "${2:?a name}" "${3:?minutes}" ;;
    report) build && report "${2:?a name}" "${3:-}" ;;
    *)
        echo "usage: tools/bench.sh run NAME MINUTES | report NAME [BEFORE]" >&2
        exit 2
        ;;
esac
