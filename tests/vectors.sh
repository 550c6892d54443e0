#!/usr/bin/env bash
# Runs the program vectors on every published SHA-1 vector and on random messages, and holds what it writes to what is expected.
#   tests/vectors.sh [SEED]
# It wants crates/vectors/out/vectors (rt ci leaves it, and so does rt run in crates/vectors) and installs Debian's package python3-cryptography-vectors.
set -euo pipefail
cd "$(dirname "$0")/.."
room=$(mktemp -d)
trap 'rm -rf "$room"' EXIT
published=/usr/lib/python3/dist-packages/cryptography_vectors
[ -d "$published" ] || tools/install python3-cryptography-vectors
python3 tests/vectors.py all "$room" "$@"
tests/run vectors <"$room/stdin" >"$room/wrote"
cat "$room/wrote"
cmp "$room/wrote" "$room/stdout"
