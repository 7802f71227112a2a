#!/usr/bin/env bash
# library.sh: builds target/libhost.a, the entries for C, proved on the way. The toolchain compiles for x86-64 alone.
set -eu
cd "$(dirname "$0")/.."
mkdir -p target
(cd crates/host_c && rt lib) >&2
cp crates/host_c/out/libhost_c.a target/libhost.a
