#!/usr/bin/env bash
# Compares the proved manifest reader and writer with a second reader, on every single-byte change of several manifests.
# It wants crates/manifests/out/manifests (rt ci leaves it, and so does rt run in crates/manifests).
set -euo pipefail
cd "$(dirname "$0")/.."
python3 tests/manifests.py tests/run manifests
