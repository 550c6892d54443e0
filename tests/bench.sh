#!/usr/bin/env bash
# The line program on document 01's session, on the story of examples/, on every form of line that it does not read, on inputs in pieces, and where reading or writing fails.
#   tests/bench.sh
# It wants crates/bench/out/bench: rt ci leaves it, and so does rt run in crates/bench.
set -euo pipefail
cd "$(dirname "$0")/.."
room=$(mktemp -d)
trap 'rm -rf "$room"' EXIT
count=0
# what NAME: $room/in is to give $room/out
same() {
    tests/run bench <"$room/in" >"$room/wrote"
    cmp "$room/wrote" "$room/out" || { echo "bench.sh: $1"; exit 1; }
    count=$((count + 1))
}
# text NAME INPUT OUTPUT, with printf's escapes
text() {
    printf "$2" >"$room/in"
    printf "$3" >"$room/out"
    same "$1"
}
for name in session story; do
    cp "examples/$name.in" "$room/in"
    cp "examples/$name.out" "$room/out"
    same "$name"
    # the last line needs no newline
    printf '%s' "$(cat "examples/$name.in")" >"$room/in"
    same "$name, no newline at the end"
done
text 'empty input' '' ''
text 'a newline alone' '\n' 'no 11\n'
text 'two newlines' '\n\n' 'no 11\nno 11\n'
text 'the last line with a newline' 'get 0 1\n' 'hex 00\n'
text 'the last line without' 'get 0 1' 'hex 00\n'
text 'a line after one that is not read' 'what\nget 0 1\n' 'no 11\nhex 00\n'
# each of these alone is one line that is not read
while IFS= read -r line; do
    text "$line" "$line\n" 'no 11\n'
done <<'LINES'
 get 0 1
get 0 1 
get  0 1
get 0
get 0 1 2
get
ret 0
get 00 1
get 01 1
get +1 1
get -1 1
get 0x1 1
get 1a 1
get 18446744073709551616 1
get 99999999999999999999 1
get 100000000000000000000 1
GET 0 1
gets 0 1
ge 0 1
put 0
put 0 
put 0 a
put 0 abc
put 0 AB
put 0 aB
put 0 0g
put 0 --
put 0 -a
put 0 a-
put 0 - 
reg 7
reg 7 - -
unr 7
unr 7 a
call 7 8192 100
call 7 8192 100 200 1
jmp
jmp a
extp 0
extm 0 0
pcr
pcr 0 0
dget 0
dput 0
new
#
\r
ret\r
get\t0\t1
get 0 1\000
\000
\200\377
get 0 \377
LINES
text 'numbers of 64 bits' 'get 18446744073709551615 1\nget 0 18446744073709551615\nunr 18446744073709551615 18446744073709551615\nget 0 0\n' 'no 4\nno 4\nno 8\nno 4\n'
text 'no bytes' 'put 0 -\n' 'no 4\n'
text 'numbers are not narrowed' 'unr 0 256\nget 0 4294967297\n' 'no 8\nno 4\n'
text 'a page' 'get 0 4096\n' "hex $(printf '0%.0s' $(seq 8192))\n"
# lines of exactly 2,000 and of 2,001 characters
digits=$(printf '61%.0s' $(seq 997))
text '2,000 characters' "put 0 $digits\nget 996 2\n" 'ok\nhex 6100\n'
text '2,000 characters, not read' "put 00 ${digits%??}6\n" 'no 11\n'
text '2,001 characters' "put 10 $digits\nget 10 1\n" 'no 11\nhex 00\n'
text '2,001 characters with no newline' "put 10 $digits" 'no 11\n'
# one of ten million, and the line after it
{ head -c 10000000 /dev/zero | tr '\0' 'a'; printf '\nget 0 1\n'; } >"$room/in"
printf 'no 11\nhex 00\n' >"$room/out"
same 'ten million characters'
{ head -c 10000000 /dev/zero; } >"$room/in"
printf 'no 11\n' >"$room/out"
same 'ten million zero bytes'
# many answers to one block of input: 4 MB out of 6 KB
for _ in $(seq 500); do echo 'get 0 4096'; done >"$room/in"
zeros=$(printf '0%.0s' $(seq 8192))
for _ in $(seq 500); do echo "hex $zeros"; done >"$room/out"
same 'five hundred pages'

# the same input in pieces, byte by byte or cut where a block ends, gives the same output
pieces() { # NAME COMMAND..: the command writes the input of $room/out
    "${@:2}" | tests/run bench >"$room/wrote"
    cmp "$room/wrote" "$room/out" || { echo "bench.sh: $1"; exit 1; }
    count=$((count + 1))
}
bytes() { dd if=examples/story.in ibs=1 obs=1 status=none; }
halves() { printf 'put 5 61'; sleep 0.2; printf '62\nget 5 '; sleep 0.2; printf '2'; }
cp examples/story.out "$room/out"
pieces 'the story, byte by byte' bytes
printf 'ok\nhex 6162\n' >"$room/out"
pieces 'lines in halves' halves
for gap in 65520 65530 65535 65536 65537; do # a line that goes from one block to the next
    { head -c "$gap" /dev/zero | tr '\0' 'x'; printf '\nput 7 6364\nget 7 2\n'; } >"$room/in"
    printf 'no 11\nok\nhex 6364\n' >"$room/out"
    same "a line across a block's end, after $gap characters"
done
# an answer does not wait for the end of the input
coproc tests/run bench
program=$COPROC_PID
echo 'get 0 1' >&"${COPROC[1]}"
read -r -t 60 answer <&"${COPROC[0]}" || { echo 'bench.sh: no answer while the input is open'; exit 1; }
[ "$answer" = 'hex 00' ] || { echo "bench.sh: $answer while the input is open"; exit 1; }
exec {COPROC[1]}>&-
wait "$program"
count=$((count + 1))

# where reading or writing fails, the program ends by itself. It has no status of its own: 0, or that of the signal.
ends() { # NAME STATUS COMMAND..
    local status=0
    timeout 60 "${@:3}" || status=$?
    [[ " $2 " == *" $status "* ]] || { echo "bench.sh: $1: status $status, not $2"; exit 1; }
    count=$((count + 1))
}
cp examples/story.in "$room/in"
closed_output() { tests/run bench <"$room/in" >&-; }
full_output() { tests/run bench <"$room/in" >/dev/full; }
closed_input() { tests/run bench <&- >"$room/wrote"; }
directory() { tests/run bench <"$room" >"$room/wrote"; }
reader_gone() { yes 'get 0 4096' 2>/dev/null | tests/run bench | head -c 1 >"$room/wrote"; return "${PIPESTATUS[1]}"; }
too_large() { (trap '' XFSZ; ulimit -f 1; tests/run bench <"$room/in" >"$room/wrote"); } # a short write, then none
slow_reader() { yes 'get 0 4096' | head -n 40 | tests/run bench | (while dd bs=4000 count=1 status=none | grep -q .; do sleep 0.01; done); }
export room
export -f closed_output full_output closed_input directory reader_gone too_large slow_reader
ends 'closed output' 0 bash -c closed_output
ends 'full output' 0 bash -c full_output
ends 'closed input' 0 bash -c closed_input
[ ! -s "$room/wrote" ] || { echo 'bench.sh: output without input'; exit 1; }
ends 'a directory for input' 0 bash -c directory
[ ! -s "$room/wrote" ] || { echo 'bench.sh: output without input'; exit 1; }
ends 'a reader that has gone' '0 141' bash -c reader_gone # 141 is SIGPIPE's, 0 where the caller ignores it
ends 'a reader that has gone, and no signal for it' 0 bash -c 'trap "" PIPE; reader_gone'
for _ in $(seq 300); do cat examples/story.in; done >"$room/in"
tests/run bench <"$room/in" >"$room/out"
ends 'a file of a kilobyte at most' 0 bash -c too_large
cmp <(head -c 1024 "$room/out") "$room/wrote" || { echo 'bench.sh: a short write'; exit 1; }
ends 'a slow reader' 0 bash -c slow_reader
echo "bench.sh: $count inputs, each with the output or the end that is expected"
