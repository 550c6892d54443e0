#!/usr/bin/env bash
# Runs every line of docs/GUIDE.md through the proved line program. It wants crates/bench/out/bench: rt ci leaves it, and so does rt run in crates/bench.
set -euo pipefail
cd "$(dirname "$0")/.."
python3 tests/guide.py tests/run bench
