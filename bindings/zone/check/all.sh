#!/bin/sh
# Runs every check of the library of zones for which this machine has the tools: a line for each, and one line over all.
#
# 'passed' and 'failed' count; 'skipped' names what could not be run, and counts as nothing.
set -u
cd "$(dirname "$0")/.." || exit 2
passed=0 failed=0

run() {
    if told=$(make --no-print-directory "$1" 2>&1); then
        passed=$((passed + 1))
        echo "passed: zones, $2$(echo "$told" | sed -n '$s/^\([0-9].*\)$/: \1/p')"
    else
        failed=$((failed + 1))
        echo "$told" | tail -n 30
        echo "failed: zones, $2"
    fi
}

skip() {
    echo "skipped: zones, $1: $2"
}

# Whether the compiler makes programs with the sanitizers.
has_sanitizers() {
    echo 'int main(void) { return 0; }' > out/empty.c
    ${CC:-cc} -fsanitize=address,undefined -o out/empty out/empty.c 2> /dev/null && out/empty
}

run all "the library and its example"
if command -v "${CXX:-c++}" > /dev/null; then run check-header "the header as C99 and C++"; else
    skip "the header as C++" "no C++ compiler"
fi
run check-symbols "symbols"
for check in calls random memory; do
    run check-$check "$check"
    if has_sanitizers; then run check-sanitized-$check "$check with the sanitizers"; else
        skip "$check with the sanitizers" "the compiler has none"
    fi
    if command -v valgrind > /dev/null; then run check-valgrind-$check "$check under valgrind"; else
        skip "$check under valgrind" "it isn't installed"
    fi
done
if command -v python3 > /dev/null; then run check-server "the server in C"; else
    skip "the server in C" "no python3"
fi
echo "$passed passed, $failed failed"
[ "$failed" -eq 0 ]
