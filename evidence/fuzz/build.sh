#!/usr/bin/env bash
# Builds the harnesses of libFuzzer: evidence/fuzz/build.sh WORK [FLAG ..]
#
# WORK              the folder to build in; the FLAGs go to the compiler
# DNSNAMES_ARCHIVE  this project's library for C (bindings/c/out/libdnsnames.a, which bindings/build makes)
# DNSNAMES_HEADER   the folder of its header (bindings/c)
#
# It needs clang with its runtime (apt-get install clang libclang-rt-14-dev). With libknot (libknot-dev) the harnesses
# compare with that, too.
set -eu
here=$(cd "$(dirname "$0")" && pwd)
top=$(dirname "$(dirname "$here")")
work=${1:?a folder to build in}
shift
library=${DNSNAMES_ARCHIVE:-$top/bindings/c/out/libdnsnames.a}
header=${DNSNAMES_HEADER:-$top/bindings/c}
if [ ! -e "$library" ]; then
    echo "no $library: run bindings/build" >&2
    exit 1
fi
knot=()
if [ -e /usr/include/libknot/libknot.h ]; then
    knot=(-DWITH_LIBKNOT -lknot)
fi
mkdir -p "$work"
for harness in read skip text order compress build; do
    clang -std=gnu11 -O1 -g -Wall -Wextra -Wpedantic -fsanitize=fuzzer "$@" -I "$header" -o "$work/$harness" \
        "$here/$harness.c" "$library" "${knot[@]}"
done
