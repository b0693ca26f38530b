#!/usr/bin/env bash
# Prints the figures of docs/LIBRARY.md: bytes of code and of constant data that the library adds to a program, and the stack and heap of calls.
set -eu
here="$(cd "$(dirname "$0")/.." && pwd)"
. "$here/tools/library.sh"
build_library

# Sums, over the memory map of a linked program, the sections that came from one archive.
sections() {
    local name size code=0 constants=0 variables=0
    while read -r name size; do
        case "$name" in
        .text*) code=$((code + size)) ;;
        .rodata* | .data.rel.ro*) constants=$((constants + size)) ;;
        .data* | .bss*) variables=$((variables + size)) ;;
        esac
    done < <(awk -v archive="$1(" '
        /^Linker script and memory map/ { mapped = 1 }
        /^ \./ { name = $1 }
        mapped && index($0, archive) {
            for (i = 1; i < NF; i++) if ($i ~ /^0x/ && $(i + 1) ~ /^0x/) print name, $(i + 1)
        }
    ' "$2")
    echo "$code | $constants | $variables |"
}

program="$here/target/example/gateway"
compile_c "$here/example/gateway.c" "$program" -Wl,--gc-sections "-Wl,-Map=$program.map"
echo "| linked into the example | code, bytes | constants, bytes | variables, bytes |"
echo "|---|---|---|---|"
echo "| the library | $(sections "$(basename "${link[0]}")" "$program.map")"
echo "| the kit's archive | $(sections "$(basename "${link[1]}")" "$program.map")"
echo
echo "Sections of the library's archive, by \`size\`:"
echo
size "${link[0]}" | sed 's/^/    /; s/(ex .*)//; s/ *$//'
echo
# Bound at the start, so that the first call of a C function does not search for it on the measured stack.
compile_c "$here/example/stack.c" "$here/target/example/stack" -Wl,-z,now -Wl,--wrap=malloc -Wl,--wrap=realloc -Wl,--wrap=free
"$here/target/example/stack"
