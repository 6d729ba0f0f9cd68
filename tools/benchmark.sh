#!/usr/bin/env bash
# Makes the library and times its calls on the largest table, beside the Rust procedures of tests/outside on the same words, built in two ways.
# It wants cargo.
set -u
cd "$(dirname "$(readlink -f "${BASH_SOURCE[0]}")")/.." || exit 1
. tools/cargo.sh

give_up() {
    echo "tools/benchmark.sh: $1" >&2
    exit 1
}

have_cargo tools/benchmark.sh || exit 1
command -v rt >/dev/null || give_up "'rt' is not on the path"

mkdir -p target
if ! tools/library.sh >target/benchmark-library.log 2>&1; then
    tail -n 20 target/benchmark-library.log >&2
    give_up "the library can't be made"
fi
echo "library: $(rt version)"
# How fast the Rust side is depends much on how it is built (docs/BENCHMARKS.md).
echo
echo '== the Rust procedures as cargo builds them for release'
in_package run --profile benchmark --features linked -- benchmark || give_up 'the benchmark failed'
echo
echo '== the Rust procedures in the fastest build that was found'
in_package run --profile benchmark-fastest --features linked -- benchmark || give_up 'the benchmark failed'
