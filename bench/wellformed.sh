#!/usr/bin/env bash
# Measures the well-formedness test against plain C with the same algorithm (gcc -O3): a fresh state, and one with as many slots
# as fit, at P=8 and P=1,024. Prints ns, instructions and ratio. Not in the gate.
#
# Our code is compiled for x86-64. On another processor everything is cross-compiled and run by an emulator: its times say
# little of a real processor, so there the script also counts the instructions that a call executes. It wants the toolchain's rt in PATH and gcc; elsewhere
# than on x86-64 also gcc-x86-64-linux-gnu.
set -euo pipefail
cd "$(dirname "$0")/.."
. bench/machine.sh
out=target/bench work=target/bench
mkdir -p "$out"
archive . bench_c
count=''
if [ -n "$run" ]; then
    # the emulator counts each turn of a `rep movsb` as an instruction, so memcpy is told to copy by vectors
    large=1000000
    run="$run -cpu max -E GLIBC_TUNABLES=glibc.cpu.x86_rep_movsb_threshold=$large:glibc.cpu.x86_rep_stosb_threshold=$large" count=yes
fi
$gcc -O3 -static bench/wellformed.c bench/plain_wellformed.c crates/bench_c/out/libbench_c.a -o "$out/wellformed" 2>"$out/link.log" || { cat "$out/link.log"; exit 1; }

instructions() { # WHICH STATE: of one more call
    for n in 1 2; do
        $run -one-insn-per-tb -d nochain,exec -D "$out/trace" "$out/wellformed" run "$2" "$1" "$n"
        grep -c '^Trace' "$out/trace" >"$out/count.$n"
    done
    rm "$out/trace"
    echo $(($(cat "$out/count.2") - $(cat "$out/count.1")))
}

echo '| state | ours, ns | plain C, ns | ratio |'"${count:+ ours, instructions | plain C, instructions | ratio |}"
echo '|---|---|---|---|'"${count:+---|---|---|}"
for state in fresh8 full8 fresh1024 full1024; do
    read -r a b < <($run "$out/wellformed" time "$state")
    line="| $state | $a | $b | $(awk "BEGIN { printf \"%.2f\", $a / $b }") |"
    if [ -n "$count" ]; then
        c=$(instructions ours "$state")
        d=$(instructions plain "$state")
        line="$line $c | $d | $(awk "BEGIN { printf \"%.2f\", $c / $d }") |"
    fi
    echo "$line"
done
