#!/bin/bash
# The C interface: the archive and what it needs, the header as C and as C++, tests/host/check.c by two compilers with and without sanitizers,
# and the deepest stack; tests/compare.sh compares it with the second monitor. On a machine that is no x86-64 the programs run under an emulator, in which the address sanitizer takes
# all memory there is: there it is left out, and undefined behaviour and the guard bytes around every buffer are watched alone.
# It needs the toolchain's rt in PATH (host/archive.sh), gcc and clang, which it installs where they are not there.
set -euo pipefail
cd "$(dirname "$0")/.."
host/archive.sh

. tests/host/tools.sh
clang='clang' sanitizers=address,undefined
[ -z "$run" ] || clang='clang --target=x86_64-linux-gnu' sanitizers=undefined
install clang clang
if [ "$sanitizers" = address,undefined ]; then # clang's own library of the sanitizer is a package of its own
    echo 'int main(void) { return 0; }' | clang -x c -fsanitize=address -o /dev/null - 2>/dev/null ||
        tools/install "libclang-rt-$(clang -dumpversion | cut -d. -f1)-dev"
fi
room=$(mktemp -d)
trap 'rm -rf "$room"' EXIT

for language in c c++; do
    echo '#include "monitor.h"' | $clang -x "$language" -Wall -Wextra -Werror -Itarget/host -fsyntax-only -
done

build() { # NAME COMPILER FLAG ..: compiled by that compiler, linked by the same or, where it only crosses, by gcc
    local name=$1 compiler=$2
    shift 2
    $compiler "${flags[@]}" "$@" "tests/host/$name.c" target/host/libhost.a -o "$room/$name"
}

checked() { # WORDS COMPILER FLAG ..
    local words=$1
    shift
    build check "$@"
    $run "$room/check" >"$room/said" || { cat "$room/said"; echo "host: $words: failed"; exit 1; }
    echo "host: $words: $(tail -n 1 "$room/said")"
}
checked "gcc -O2" "$gcc" -O2
checked "gcc -O0, sanitizers: $sanitizers" "$gcc" -O0 -g -fsanitize="$sanitizers" -fno-sanitize-recover=all
checked "clang -O2" "$clang" -O2
checked "clang -O0, sanitizers: $sanitizers" "$clang" -O0 -g -fsanitize="$sanitizers" -fsanitize-trap=undefined

# the program of docs/HOST.md, as it stands there
awk '/^```c$/ { on = 1; next } /^```$/ { on = 0 } on' docs/HOST.md >"$room/life.h"
build life "$gcc" -O2 -I"$room" -Wno-empty-body
echo "host: $($run "$room/life")"

build moves "$gcc" -O2 -fsanitize="$sanitizers" -fno-sanitize-recover=all
echo "host: $($run "$room/moves")"

build stack "$gcc" -O2 -Wl,-z,now # so that the first call of a C function does not count what the loader takes to find it
$run "$room/stack" 6264 # bytes; what an event takes stands in docs/HOST.md
