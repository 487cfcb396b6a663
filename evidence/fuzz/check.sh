#!/usr/bin/env bash
# Runs the kept inputs once through the harnesses, in seconds: evidence/fuzz/check.sh. The last line is 'N passed, N
# failed'. Where clang, its runtime or the library for C isn't there, the line before it says so as 'skipped', and no
# input is run. Status 1 where an input failed, or where the harnesses can't be built though all of that is there.
# build.sh tells the variables.
set -u
here=$(cd "$(dirname "$0")" && pwd)
library=${DNSNAMES_ARCHIVE:-$(dirname "$(dirname "$here")")/bindings/c/out/libdnsnames.a}
work=$(mktemp -d)
trap 'rm -rf "$work"' EXIT

skip() {
    echo "skipped: the inputs of the fuzzer: $1"
    echo "0 passed, 0 failed"
    exit 0
}

has_runtime() {
    echo 'int LLVMFuzzerTestOneInput(const char *data, unsigned long size) { return data == 0 && size > 0; }' |
        clang -fsanitize=fuzzer -x c -o "$work/probe" - 2> /dev/null
}

# Runs all inputs of a harness at once; where that stops, each by itself.
run_harness() {
    local harness=$1 input inputs=("$here/corpus/$1"/*)
    if "$work/$harness" "${inputs[@]}" > "$work/log" 2>&1; then
        passed=$((passed + ${#inputs[@]}))
        return
    fi
    for input in "${inputs[@]}"; do
        if "$work/$harness" "$input" > "$work/log" 2>&1; then
            passed=$((passed + 1))
        else
            failed=$((failed + 1))
            echo "failed: $input: $(grep -m 1 'not so' "$work/log" || tail -n 1 "$work/log")" >&2
        fi
    done
}

command -v clang > /dev/null || skip "clang isn't there (apt-get install clang libclang-rt-14-dev)"
has_runtime || skip "clang has no runtime for fuzzing (apt-get install libclang-rt-14-dev)"
[ -e "$library" ] || skip "the library for C isn't built (bindings/build)"
passed=0 failed=0
if "$here/build.sh" "$work" 2> "$work/log"; then
    for folder in "$here"/corpus/*; do
        run_harness "$(basename "$folder")"
    done
else
    head -n 5 "$work/log" >&2
    echo "failed: the harnesses of the fuzzer can't be built" >&2
    failed=1
fi
echo "$passed passed, $failed failed"
[ "$failed" -eq 0 ]
