#!/usr/bin/env bash
# Every public function has a contract on what it returns, none but the listed inner ones asks anything, and each has its theorem of one outcome.
set -euo pipefail
cd "$(dirname "$0")/.."
python3 tests/contracts.py
