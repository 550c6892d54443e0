#!/usr/bin/env bash
# Measures our SHA-1 against plain portable C by gcc -O3 and by clang -O3 (a loop for each twenty rounds as in ours, and five rounds a turn) and
# against OpenSSL: with the processor's SHA instructions, without them, and with integer code only. Not in the gate.
# It wants the toolchain's rt in PATH, an x86-64, gcc, clang, libssl-dev.
set -euo pipefail
cd "$(dirname "$0")/.."
[ "$(uname -m)" = x86_64 ] || { echo "This machine is no x86-64, for which our code is compiled."; exit 1; }
. bench/machine.sh
out=target/bench work=target/bench
mkdir -p "$out"
archive . bench_c
for cc in gcc clang; do
    $cc -O3 -DNAME=plain_$cc -c bench/plain_sha1.c -o "$out/plain_$cc.o"
    $cc -O3 -DNAME=five_$cc -c bench/monitor_sha1.c -o "$out/five_$cc.o"
done
gcc -O2 bench/sha1.c "$out"/{plain,five}_{gcc,clang}.o crates/bench_c/out/libbench_c.a -lcrypto -o "$out/sha1"

row() { # LABEL NAME: that of the last run
    awk -v label="$1" -v name="$2" '$1 == name { printf "| %s | %d | %d | %.2f | %.0f | %.2f |\n", label, $2, 262144000 / $2, $4, $3, $5 }' "$out/run"
}
echo '| | 256 KiB, ns | MB/s | time / ours | 64 bytes, ns | time / ours |'
echo '|---|--:|--:|--:|--:|--:|'
"$out/sha1" >"$out/run"
row 'ours' ours
row 'plain C, gcc -O3' gcc
row 'plain C, clang -O3' clang
row 'plain C, five rounds a turn, gcc -O3' five-gcc
row 'plain C, five rounds a turn, clang -O3' five-clang
row 'OpenSSL, SHA instructions' openssl
# OPENSSL_ia32cap, where bit 29 of the third word is SHA and bit 9 of the second SSSE3, without which it takes integer code
OPENSSL_ia32cap=:~0x20000000 "$out/sha1" >"$out/run"
row 'OpenSSL, without them' openssl
OPENSSL_ia32cap=~0x20000000000:~0x20000000 "$out/sha1" >"$out/run"
row 'OpenSSL, integer only' openssl
