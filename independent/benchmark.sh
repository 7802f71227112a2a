#!/usr/bin/env bash
# benchmark.sh [REPEATS [WORD]]: times the proved engine beside the independent program, both built for release, in one process. The engine's
# library is built first if it is not there or older than the crates. No part of the gate: a time depends on the machine.
set -eu
cd "$(dirname "$0")/.."
library=target/libhost.a
if [ ! -f $library ] || [ -n "$(find crates crates.txt -name out -prune -o -type f -newer $library -print -quit)" ]; then
    host/library.sh >&2
fi
KP_LIB=$PWD/target
export KP_LIB

cd independent
cargo build --release --offline --quiet --features compare --bin benchmark
echo "processor	: $(lscpu | sed -n 's/^Model name: *//p')"
echo "processors	: $(nproc)"
echo "independent	: $(rustc --version), opt-level 3"
echo "proved		: $(rt version)"
exec target/release/benchmark "$@"
