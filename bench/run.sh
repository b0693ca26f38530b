#!/usr/bin/env bash
# Builds the static library and the benchmark, and prints the tables of docs/SPEED.md.
set -eu
here="$(cd "$(dirname "$0")/.." && pwd)"
. "$here/tools/library.sh"
build_library
compile_rust "$here/bench/main.rs" "$here/target/bench/bench"
"$here/target/bench/bench"
