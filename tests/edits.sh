#!/usr/bin/env bash
# Every must-fail edit is refused because a fact no longer holds. It tries each once more, since rt ci says little of it; it needs the toolchain's rt in PATH, and room for a
# copy of what that keeps (some GB of disk).
#   tests/edits.sh [CRATE[/LABEL] ..]
set -euo pipefail
cd "$(dirname "$0")/.."
python3 tests/edits.py "$@"
