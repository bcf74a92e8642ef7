#!/usr/bin/env bash
# bash tools/rust.sh CARGO'S WORDS: cargo on the workspace rust/, over the archive that 'make' has built.
set -euo pipefail
cd "$(dirname "$0")/.."
word=$1
shift
exec cargo "$word" --offline --quiet --manifest-path rust/Cargo.toml "$@"
