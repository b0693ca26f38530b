#!/usr/bin/env bash
# Counts the instructions that the library and the plain program take for jobs of 4,096 bytes, and prints the functions that take
# most in the job that is worst for the library.
set -eu
here="$(cd "$(dirname "$0")/.." && pwd)"
. "$here/tools/library.sh"
build_library
folder="$here/target/bench"
compile_rust "$here/bench/main.rs" "$folder/bench"

# Runs a job on one side under valgrind, counting only inside its function: the side, the function, the job.
# Prints how many instructions it took.
count() {
    valgrind --tool=callgrind --callgrind-out-file="$3.$1" --toggle-collect="*$2*" \
        "$folder/bench" "$1" "$3" > "$folder/valgrind.log" 2>&1 || {
        cat "$folder/valgrind.log" >&2
        exit 1
    }
    sed -n 's/^totals: //p' "$3.$1"
}

# A number with commas between thousands.
commas() {
    sed -E ':more; s/([0-9])([0-9]{3})(,|$)/\1,\2\3/; t more' <<< "$1"
}

# Rows of the functions that took most in a job: the side, the job.
functions() {
    callgrind_annotate --auto=no "$2.$1" | grep -E '^ *[0-9,]+ \(.*%\)' | grep -v 'PROGRAM TOTALS' | head -4 |
        sed -E 's/ \[[^]]*\]$//; s/::<#[0-9a-f]*>//; s/^ *([0-9,]+) \( *([0-9.]+%)\) *[^:]*:(.*)/| '"$1"' | \1 | \2 | `\3` |/'
}

"$folder/bench" candidates "$folder" > "$folder/candidates"
worst=0
echo "| job of 4,096 bytes | halvings | ours, instructions | plain, instructions | ours/plain |"
echo "|---|---|---|---|---|"
while read -r job halvings name; do
    ours="$(count ours rangecheck_job "$job")"
    plain="$(count plain run_plain "$job")"
    ratio="$(awk "BEGIN { printf \"%.2f\", $ours / $plain }")"
    echo "| $name | $halvings | $(commas "$ours") | $(commas "$plain") | $ratio |"
    if [ "$ours" -gt "$worst" ]; then
        worst="$ours"
        worst_job="$job"
        worst_name="$name"
    fi
done < "$folder/candidates"
printf '\n| %s | instructions | share | in |\n|---|---|---|---|\n' "$worst_name"
functions ours "$worst_job"
functions plain "$worst_job"
