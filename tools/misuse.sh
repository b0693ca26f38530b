#!/usr/bin/env bash
# Shows that two misuses of an enquiry do not compile: halving it after the close, and reading its witness before the close.
# Each is put into a copy of the crate `stages` in place of a comment there; the compiler must refuse it, and for the reason named here.
set -u
here="$(cd "$(dirname "$0")/.." && pwd)"
copy="$(mktemp -d)/repository"
trap 'rm -rf "$(dirname "$copy")"' EXIT
mkdir "$copy"
(cd "$here" && tar -cf - --exclude=out crates crates.txt) | tar -xf - -C "$copy"
failed=0

refused() {
    cp "$here/crates/stages/src/main.rt" "$copy/crates/stages/src/main.rt"
    sed -i "s|$2|$3|" "$copy/crates/stages/src/main.rt"
    if cmp -s "$here/crates/stages/src/main.rt" "$copy/crates/stages/src/main.rt"; then
        echo "$1: the comment is not there"
        failed=1
    elif (cd "$copy/crates/stages" && rt check 2>&1) | grep -q "error\[$4\]"; then
        echo "$1: does not compile ($4)"
    else
        echo "$1: NOT REFUSED"
        failed=1
    fi
}

refused "halving after the close" \
    "// After the close there is no enquiry to halve." "let _ = enquiry.halve(0, 1);" borrow-e0382
refused "reading the witness before the close" \
    "// While it is open the enquiry does not show its witness." "let _ = enquiry.witness;" private-field
exit "$failed"
