#!/bin/bash
# Builds target/second/release/second, the second monitor, and .../compare, which compares it. It needs cargo alone, which it installs where it is not there.
set -euo pipefail
cd "$(dirname "$0")/../.."
command -v cargo >/dev/null || tools/install cargo
cargo build --release --offline --quiet --manifest-path tests/second/Cargo.toml --target-dir target/second
