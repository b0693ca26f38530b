#!/usr/bin/env bash
# Sourced by the scripts that link the library. The caller has set `here`, the repository's folder.
# `build_library` proves and builds the static library and sets `link`: what a linker is given, in this order: the library, and the kit's
# archive through which it takes memory.
# An archive that is built already can be named in the variable RANGECHECK_LIBRARY; then nothing is proved.

build_library() {
    local kit archive
    kit="$(dirname "$(rt doc)")"
    archive="${RANGECHECK_LIBRARY:-}"
    if [ -z "$archive" ]; then
        (cd "$here/crates/gateway" && rt lib) >&2
        archive="$here/crates/gateway/out/libgateway.a"
    fi
    link=("$archive" "$kit/c/liblibc_c.a")
}

# Compiles a program of plain Rust that links the library: the source, the program, and further options.
compile_rust() {
    local argument arguments=()
    for argument in "${link[@]}"; do
        arguments+=(-C "link-arg=$argument")
    done
    mkdir -p "$(dirname "$2")"
    rustc --edition 2021 -O -C codegen-units=1 -D warnings "$1" -o "$2" "${arguments[@]}" "${@:3}"
}

# Compiles a C program that links the library: the source, the program, and further options.
compile_c() {
    mkdir -p "$(dirname "$2")"
    gcc -std=c99 -Wall -Wextra -Werror -O2 -I "$here/include" "$1" -o "$2" "${link[@]}" "${@:3}"
}
