#!/bin/sh
# What ../make-dist makes stands alone: dist.sh FOLDER makes it there, unpacks it elsewhere, and builds and runs an example
# of its header and libraries, static and shared, and with cargo a program over its crates. Made twice, it has the same
# octets.
set -eu
here=$(dirname "$(readlink -f "$0")")
folder=$1
compiler=${CC:-cc}
first=$("$here/../../make-dist" "$folder" 2> /dev/null)
again=$("$here/../../make-dist" "$folder" 2> /dev/null)
[ "$first" = "$again" ] || { echo "made twice: $first, $again" >&2; exit 1; }
rm -rf "$folder/elsewhere"
mkdir "$folder/elsewhere"
tar -xzf "$folder/${first##* }" -C "$folder/elsewhere"
cd "$folder"/elsewhere/*
sha256sum --quiet --check SHA256SUMS
"$compiler" -std=c99 -Iinclude "$here/../examples/tell_hex.c" lib/libdnsnames.a -o static
[ "$(echo 0161 00 | ./static)" = a. ]
flags="-Iinclude -Llib -ldnsnames"
if command -v pkg-config > /dev/null; then
    flags=$(PKG_CONFIG_LIBDIR=lib/pkgconfig pkg-config --cflags --libs dnsnames)
fi
# The flags are words.
# shellcheck disable=SC2086
"$compiler" -std=c99 "$here/../examples/tell_hex.c" -o shared $flags
[ "$(echo 0161 00 | LD_LIBRARY_PATH=lib ./shared)" = a. ]
if command -v cargo > /dev/null; then
    cargo new --quiet --offline --vcs none rust_program
    cargo add --quiet --offline --manifest-path rust_program/Cargo.toml --path rust
    printf '%s\n' 'fn main() { println!("{:#}", dnsnames::Name::from_slice(b"\x01a\0").unwrap()); }' > rust_program/src/main.rs
    [ "$(DNSNAMES_LIB_DIR=$PWD/lib cargo run --quiet --offline --manifest-path rust_program/Cargo.toml)" = a. ]
fi
echo "$first"
