# Sourced by run.sh and headers.sh, with the repository's folder in $here: builds the static library, and compiles the comparison against it.
# Overflow checks stay on, so that no number of the comparison can wrap.
. "$here/tools/library.sh"
build_library
compare="$here/target/compare/compare"
compile_rust "$here/compare/main.rs" "$compare" -C overflow-checks=on
