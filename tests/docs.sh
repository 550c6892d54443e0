#!/usr/bin/env bash
# What the pages name exists: theorems, functions, edits and files.
set -euo pipefail
cd "$(dirname "$0")/.."
python3 tests/docs.py
