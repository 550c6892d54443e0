#!/bin/bash
# Compares moving 2,048 bytes, giving and putting 4,096 and zeroing 64 pages with memcpy and memset by gcc -O3, in one
# run: prints ns and ratios, and the calls that LLVM made of the loops. No part of the gate: a time is no test. It needs the toolchain's rt in PATH.
set -eu
cd "$(dirname "$0")/.."
. bench/machine.sh
work=target/bench/memory
rm -rf "$work"
mkdir -p "$work"
room=$(mktemp -d)
trap 'rm -rf "$room"' EXIT
copied "$room"

# the same code and proofs, and a static library that gives the functions to C
mkdir -p "$room/crates/memory_c/src"
cat >"$room/crates/memory_c/src/lib.rt" <<'END'
#![tactic(auto)]

ghost use Rattle.std.specs.Prelude.{◌+◌, ◌≤◌, length};
ghost use Rattle.geometry.specs.Geometry.{page_size, start_of};

#[unsafe(no_mangle)]
pub extern "C" fn zero_run(memory: &mut [u8], first: usize, count: usize)
    requires { start_of (first + count) ≤ length memory.old }
{
    memory::zero_run(memory, first, count);
}

#[unsafe(no_mangle)]
pub extern "C" fn move_bytes(memory: &mut [u8], from: usize, to: usize, n: usize)
    requires { (from + n ≤ length memory.old) × ((to + n ≤ length memory.old) × (n ≤ page_size)) }
{
    memory::move_bytes(memory, from, to, n);
}

#[unsafe(no_mangle)]
pub extern "C" fn put_bytes(memory: &mut [u8], at: usize, payload: &[u8])
    requires { at + length payload.now ≤ length memory.old }
{
    memory::put_bytes(memory, at, payload);
}

#[unsafe(no_mangle)]
pub extern "C" fn give_bytes(memory: &[u8], at: usize, n: usize, buffer: &mut [u8])
    requires { (at + n ≤ length memory.now) × (n ≤ length buffer.old) }
{
    memory::give_bytes(memory, at, n, buffer);
}
END
echo 'memory_c staticlib: geometry memory' >>"$room/crates.txt"
archive "$room" memory_c
made=$room/crates/memory_c/out/libmemory_c.a
"$gcc" -O3 -static bench/memory.c "$made" -o "$work/memory"
$run "$work/memory"
echo
echo "Calls in the archive: $("${gcc%gcc}objdump" -dr "$made" | grep -oE 'mem(set|cpy|move)' | sort | uniq -c | tr -s ' \n' ' ')"
