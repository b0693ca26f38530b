#!/usr/bin/env bash
# Compares the record readers over all 2^24 headers, each with the matching length and with wrong ones.
set -eu
here="$(cd "$(dirname "$0")/.." && pwd)"
. "$here/compare/build.sh"
timeout 600 "$compare" headers
