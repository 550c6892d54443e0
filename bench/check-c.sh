#!/bin/bash
# Compares the plain C monitor of the benchmarks with the second monitor (tests/second), on random traces and odd lines, at
# several sizes, built with the address and undefined-behaviour sanitizers and by gcc -O3: a wrong C monitor is no measure.
set -eu
cd "$(dirname "$0")/.."
work=target/bench/check-c
mkdir -p "$work"
command -v gcc >/dev/null || tools/install gcc
tests/second/build.sh
export ASAN_OPTIONS=detect_leaks=0 # no heap is used, and the search for leaks is slow

compare() { # P M ROOM TRACES LINES
    local sizes="-DPAGES=$1 -DKEPT=$2 -DROOM=$3" program
    # shellcheck disable=SC2086
    gcc -std=gnu11 -Wall -Wextra -Werror -O1 -g -fsanitize=address,undefined -fno-sanitize-recover=all $sizes bench/lines_c.c bench/monitor.c -o "$work/checked"
    # shellcheck disable=SC2086
    gcc -std=gnu11 -Wall -Wextra -Werror -O3 $sizes bench/lines_c.c bench/monitor.c -o "$work/fast"
    for program in fast checked; do
        echo "P=$1 M=$2, buffer $3, $program"
        target/second/release/compare lines traces "$4" lines "$5" sizes "$1" "$2" "$3" -- "$work/$program"
    done
}
compare 8 1 4096 10 5000
compare 2 1 16 2 2000
compare 9 7 19 3 3000
compare 41 1 4095 6 6000
compare 1024 900 4096 3 5000
