#!/bin/bash
# What the comparison is worth: wrong rules are put into the second monitor, one at a time (tests/second/mutants.txt), and each must be found by what
# tests/compare.sh asks with its fixed seed. Prints which line finds each, and fails where one is not found.
# It needs the toolchain's rt in PATH (host/archive.sh), crates/bench/out/bench, cargo and gcc, which it installs where they are not there.
set -euo pipefail
cd "$(dirname "$0")/.."
room=$(mktemp -d)
trap 'rm -rf "$room"' EXIT
tests/second/build.sh
host/archive.sh >/dev/null
. tests/host/tools.sh
"$gcc" "${flags[@]}" -O2 tests/host/calls.c target/host/libhost.a -o "$room/calls"

compare() { timeout 240 target/second/release/compare "$@"; }
kept() { "$@" >"$room/said" || { cat "$room/said"; exit 1; }; }
kept compare lines seed 1 traces 3 lines 5000 keep "$room/lines" -- tests/run bench
# shellcheck disable=SC2086
kept compare calls seed 1 all keep "$room/calls" -- $run "$room/calls"
compare mutants tests/second/mutants.txt tests/second/src target/second/release/libsecond.rlib "$room"
