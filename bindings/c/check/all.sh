#!/bin/sh
# Runs every check of the C library for which this machine has the tools: a line for each, and one line over all.
#
# 'passed' and 'failed' count; 'skipped' names what could not be run, and counts as nothing.
set -u
cd "$(dirname "$0")/.." || exit 2
passed=0 failed=0

run() {
    if told=$(make --no-print-directory "$1" 2>&1); then
        passed=$((passed + 1))
        echo "passed: C, $2$(echo "$told" | sed -n '$s/^\([0-9].*\|needs .*\)$/: \1/p')"
    else
        failed=$((failed + 1))
        echo "$told" | tail -n 30
        echo "failed: C, $2"
    fi
}

skip() {
    echo "skipped: C, $1: $2"
}

# Whether the compiler makes programs with the sanitizers.
has_sanitizers() {
    echo 'int main(void) { return 0; }' > out/empty.c
    ${CC:-cc} -fsanitize=address,undefined -o out/empty out/empty.c 2> /dev/null && out/empty
}

make --no-print-directory all > out.log 2>&1 || {
    cat out.log
    rm -f out.log
    echo "failed: C, the library and its examples"
    echo "0 passed, 1 failed"
    exit 1
}
rm -f out.log
if command -v "${CXX:-c++}" > /dev/null; then run check-header "the header as C99, C11 and C++"; else
    skip "the header as C++" "no C++ compiler"
fi
run check-calls "worked cases and bad input"
run check-nulls "null pointers"
run check-random "random messages"
run check-shared "the shared object"
run check-examples "examples"
run check-symbols "symbols"
if command -v pkg-config > /dev/null; then run check-install "install and uninstall"; else
    skip "install and uninstall" "no pkg-config"
fi
for check in calls nulls random; do
    if has_sanitizers; then run check-sanitized-$check "$check with the sanitizers"; else
        skip "$check with the sanitizers" "the compiler has none"
    fi
    if command -v valgrind > /dev/null; then run check-valgrind-$check "$check under valgrind"; else
        skip "$check under valgrind" "it isn't installed"
    fi
done
echo "$passed passed, $failed failed"
[ "$failed" -eq 0 ]
