#!/bin/bash
# The proved monitor, called as firmware calls it (host/archive.sh, over a lent state), beside the plain C monitor by gcc -O3, in one
# run: first random events on which both must do the same, then ns and ratios with the TrustVisor report's tables 2 and 3
# beside them (other hardware, a 2.3 GHz AMD Opteron, and the processor's switch between guest and host is in its times),
# registration beside the bare hash of its pages, and the deepest stack use; under an emulator the instructions of one event too. No part of the gate: a time is no test.
# It needs the toolchain's rt in PATH.
set -eu
cd "$(dirname "$0")/.."
. bench/machine.sh
work=target/bench/monitor
rm -rf "$work"
mkdir -p "$work"
host/archive.sh >/dev/null
archive . bench_c # the bare hash, under a name that C can call

"$gcc" -std=gnu11 -O3 -c bench/monitor.c -o "$work/monitor.o"
"$gcc" -std=gnu11 -O2 -fno-strict-aliasing -static bench/monitor_times.c "$work/monitor.o" target/host/libhost.a crates/bench_c/out/libbench_c.a -o "$work/times"
if [ -n "$run" ]; then
    python3 bench/counts.py "$run" "$work/times" "$@"
else
    "$work/times" "$@"
fi
echo
echo "Copies of a slot (0x120) or of a state (0xd30 and near) in the archive, by memcpy:"
"${gcc%gcc}objdump" -dr --no-show-raw-insn target/host/libhost.a | grep -B6 'R_X86_64_PLT32.*memcpy' | grep -oE '\$0x[0-9a-f]+,%edx' | sort | uniq -c | sort -rn | head
