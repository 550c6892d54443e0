#!/bin/bash
# Compares the proved line program, and the archive for C, with the second monitor (tests/second, written from document 01 alone), answer by answer: random traces
# of lines, and scripts of calls that no line can make. A fixed seed, then a fresh one, which is printed; the first difference is shrunk and shown. Of the fixed seed every answer
# that can be given must occur.
#   tests/compare.sh [SEED [SECONDS]]      the fresh seed, and how long it goes on
# It needs the toolchain's rt in PATH (host/archive.sh), crates/bench/out/bench, cargo and gcc, which it installs where they are not there.
set -euo pipefail
cd "$(dirname "$0")/.."
fresh=${1:-$(od -An -N4 -tu4 /dev/urandom | tr -d ' ')} seconds=${2:-20}
tests/second/build.sh
host/archive.sh >/dev/null
. tests/host/tools.sh
calls=target/second/calls
"$gcc" "${flags[@]}" -O2 tests/host/calls.c target/host/libhost.a -o "$calls"

compare() { timeout 240 target/second/release/compare "$@"; }
compare lines seed 1 traces 20 lines 5000 all -- tests/run bench
# shellcheck disable=SC2086
compare calls seed 1 all -- $run "$calls"
echo "compare: fresh seed $fresh (tests/compare.sh $fresh goes through the same traces again)"
compare lines seed "$fresh" seconds "$seconds" lines 5000 -- tests/run bench
# shellcheck disable=SC2086
compare calls seed "$fresh" -- $run "$calls"
