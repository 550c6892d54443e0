#!/bin/bash
# Makes what firmware links: target/host/libhost.a and target/host/monitor.h, and prints their sizes. Fails where the archive needs more from outside
# than memcpy and memset. It needs the toolchain's rt in PATH, which proves what it compiles (crate host_c); gcc and binutils for x86-64 it installs where they are not there.
set -euo pipefail
cd "$(dirname "$0")/.."
prefix='' package=gcc
[ "$(uname -m)" = x86_64 ] || prefix=x86_64-linux-gnu- package=gcc-x86-64-linux-gnu
command -v "${prefix}gcc" >/dev/null || tools/install "$package"
out=target/host

mkdir -p "$out"
exec 9>"$out/lock" # two tests may ask for it at a time
flock 9
# an archive that is newer than all that it is made of is not made again
if [ ! -s "$out/libhost.a" ] || [ -n "$(find crates crates.txt host -name out -prune -o -type f -newer "$out/libhost.a" -print -quit)" ]; then
    (cd crates/host_c && rt lib) >"$out/lib.log" 2>&1 || { tail -n 5 "$out/lib.log"; exit 1; }
    # one object, in which the name memmove is the archive's own
    "${prefix}gcc" -std=c11 -O2 -fPIC -ffreestanding -fno-tree-loop-distribute-patterns -Wall -Wextra -Werror -c host/memmove.c -o "$out/memmove.o"
    "${prefix}ld" -r --whole-archive crates/host_c/out/libhost_c.a --no-whole-archive "$out/memmove.o" -o "$out/host.o"
    "${prefix}objcopy" --localize-symbol=memmove "$out/host.o"
    rm -f "$out/libhost.a"
    "${prefix}ar" rcs "$out/libhost.a" "$out/host.o"
fi
cp host/monitor.h "$out/"

echo "archive: $("${prefix}size" -t "$out/libhost.a" | awk 'END { print $1 " bytes of code and constants, " $2 + $3 " of data" }')"
echo "archive: functions for C: $("${prefix}nm" -g --defined-only "$out/libhost.a" | awk '$3 ~ /^monitor_/ { print $3 }' | sort | tr '\n' ' ')"
needs=$("${prefix}nm" -u "$out/libhost.a" | awk 'NF == 2 { print $2 }' | sort -u | tr '\n' ' ')
echo "archive: needs from outside: $needs"
for symbol in $needs; do
    case $symbol in
    memcpy | memset) ;;
    *) echo "archive: $symbol is more than memcpy and memset"; exit 1 ;;
    esac
done
