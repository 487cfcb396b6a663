#!/usr/bin/env bash
# Fuzzes the library for C, guided by the coverage of the second reader (reader.h):
#
#   evidence/fuzz/run.sh SECONDS [WORK] [--write]
#
# SECONDS  in all, shared by the harnesses
# WORK     the folder to build in, and for the inputs found (a new one of mktemp)
# --write  what is printed is written into last-run.md beside this script, too
#
# It begins with the inputs of corpus, and stops at the first difference with the input saved in WORK/found. The
# last line has the runs, the runs a second and the differences; the line before it the branches of the second reader
# that the runs covered. build.sh tells what is needed.
set -eu
here=$(cd "$(dirname "$0")" && pwd)
seconds=${1:?seconds} write=
shift
if [ "${!#}" = --write ]; then write=1 && set -- "${@:1:$#-1}"; fi
work=${1:-$(mktemp -d)}
mkdir -p "$work/found"
work=$(cd "$work" && pwd)
: > "$work/told"
tell() { echo "$*" | tee -a "$work/told"; }
"$here/build.sh" "$work"
"$here/build.sh" "$work/coverage" -fprofile-instr-generate -fcoverage-mapping
harnesses=(read skip text order compress build)
runs=0 differences=0 begun=$SECONDS
mkdir -p "${harnesses[@]/#/$work/corpus/}" "${harnesses[@]/#/$here/corpus/}"
for harness in "${harnesses[@]}"; do
    if ! "$work/$harness" -seed=1 -max_len=1200 -max_total_time=$((seconds / ${#harnesses[@]})) -print_final_stats=1 \
        -artifact_prefix="$work/found/$harness-" "$work/corpus/$harness" "$here/corpus/$harness" \
        > "$work/$harness.log" 2>&1; then
        differences=$((differences + 1))
        grep 'not so' "$work/$harness.log" || tail -n 3 "$work/$harness.log"
    fi
    count=$(sed -n 's/^stat::number_of_executed_units: *//p' "$work/$harness.log")
    tell "$harness: ${count:-0} runs, $(find "$work/corpus/$harness" -type f | wc -l) inputs kept"
    runs=$((runs + ${count:-0}))
    [ "$differences" -eq 0 ] || break
done
took=$((SECONDS - begun))
objects=()
for harness in "${harnesses[@]}"; do
    LLVM_PROFILE_FILE=$work/coverage/$harness.profraw "$work/coverage/$harness" -runs=0 "$work/corpus/$harness" \
        "$here/corpus/$harness" > /dev/null 2>&1 || true
    objects+=(-object "$work/coverage/$harness")
done
find_tool() {
    command -v "$1" || command -v "$1-14" || ls /usr/lib/llvm-*/bin/"$1" 2> /dev/null | head -n 1
}
"$(find_tool llvm-profdata)" merge -o "$work/coverage/all.profdata" "$work"/coverage/*.profraw
"$(find_tool llvm-cov)" report "${objects[@]:1}" -instr-profile "$work/coverage/all.profdata" "$here/reader.h" | awk '
    $1 ~ /reader\.h$/ {
        print "branches of the second reader: " $(NF - 2) ", of them not taken: " $(NF - 1) " (" $NF " taken)"
    }' | tee -a "$work/told"
tell "$runs runs, $((runs / (took > 0 ? took : 1))) a second, $differences differences"
[ "$differences" -eq 0 ] || echo "the input: $(ls "$work"/found/*)"
if [ -n "$write" ]; then
    {
        printf '# The last run of the fuzzer\n\n`evidence/fuzz/run.sh %s --write` of %s.\n\n' "$seconds" "$(date +%F)"
        sed 's/^/    /' "$work/told"
    } > "$here/last-run.md"
fi
exit "$differences"
