#!/usr/bin/env bash
# compare.sh LIBDIR [SEED]: compares the proved engine, LIBDIR/libhost.a, with the independent program. It fails on any difference.
set -eu
if [ $# -lt 1 ] || [ ! -f "$1/libhost.a" ]; then
    echo "compare.sh LIBDIR [SEED]: LIBDIR must hold libhost.a" >&2
    exit 2
fi
KP_LIB=$(cd "$1" && pwd)
export KP_LIB
shift
cd "$(dirname "$0")"
exec cargo run --release --offline --quiet --features compare --bin compare -- "$@"
