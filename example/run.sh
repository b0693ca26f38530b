#!/usr/bin/env bash
# Builds the static library and the C example, runs it, and compares what it prints with expected.txt.
set -eu
here="$(cd "$(dirname "$0")/.." && pwd)"
. "$here/tools/library.sh"
build_library
program="$here/target/example/gateway"
compile_c "$here/example/gateway.c" "$program"
"$program" > "$program.out"
cat "$program.out"
diff "$here/example/expected.txt" "$program.out" || {
    echo "the example prints something else than expected.txt" >&2
    exit 1
}
