#!/usr/bin/env bash
# Compares jobs and single forms with the independent implementation, and checks the answers against exact values.
# usage: compare/run.sh [COUNT [SEED]]   (50,000 jobs and a seed from the clock where they are not given)
set -eu
here="$(cd "$(dirname "$0")/.." && pwd)"
. "$here/compare/build.sh"
count="${1:-50000}"
shift $(($# > 0))
timeout 900 "$compare" jobs "$count" "$@"
