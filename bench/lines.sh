#!/bin/bash
# Lines a second of the proved line program and of the C one (gcc -O3) on 1,000,000 lines of mixed events, run the same way.
# Both must answer the same. The trace is kept in target/. No part of the gate: a time is no test.
#   bench/lines.sh [LINES]
set -eu
cd "$(dirname "$0")/.."
. bench/machine.sh
lines=${1:-1000000}
work=target/bench/lines
mkdir -p "$work"
proved=crates/bench/out/bench
[ -x "$proved" ] || { echo "$proved is not there: run rt run in crates/bench"; exit 1; }

trace=$work/trace-$lines
tests/second/build.sh
[ -s "$trace" ] || { target/second/release/compare trace 1 "$lines" >"$trace.new" && mv "$trace.new" "$trace"; }

"$gcc" -std=gnu11 -O3 bench/lines_c.c bench/monitor.c -o "$work/c"

seconds() { # NAME PROGRAM: of processor time, the least of three runs
    local best='' took
    for _ in 1 2 3; do
        took=$({ TIMEFORMAT=%U; time $run "$2" <"$trace" >"$work/$1.out"; } 2>&1)
        best=$(printf '%s\n' $best "$took" | sort -n | head -n 1)
    done
    echo "$best"
}
ours=$(seconds bench "$proved") c=$(seconds c "$work/c")
cmp "$work/bench.out" "$work/c.out"
awk -v n="$lines" -v a="$ours" -v c="$c" 'BEGIN {
    print "| program | seconds | lines a second | ratio |\n|---|--:|--:|--:|"
    printf "| proved | %.2f | %.0f | %.2f |\n| C, gcc -O3 | %.2f | %.0f | 1.00 |\n", a, n / a, a / c, c, n / c }'
echo "The same $lines answers."
