#!/usr/bin/env bash
# Builds a driver for each library of the comparison that is there, and tells which aren't, and what would bring them.
#
#   evidence/compare/build.sh WORK
#
# WORK              the folder to build in; nothing is written beside this script
# DNSNAMES_ARCHIVE  this project's library for C (bindings/c/out/libdnsnames.a, which bindings/build makes)
# DNSNAMES_HEADER   the folder of its header (bindings/c)
# DOMAIN_SOURCE     a folder with the Rust crates `domain` and `octseq`, each in a folder of its name; nothing of them
#                   is here
# CARGO             (cargo of the path)
#
# The rest comes from Debian's packages alone. WORK/drivers gets one executable for each library; WORK/missing one file
# for each that could not be built, with the reason.
set -u
here=$(cd "$(dirname "$0")" && pwd)
top=$(dirname "$(dirname "$here")")
work=${1:?a folder to build in}
mkdir -p "$work/drivers" "$work/missing" "$work/log"
work=$(cd "$work" && pwd)
rm -f "$work"/drivers/* "$work"/missing/*
source=$here/drivers
gopath=/usr/share/gocode
warnings=(-std=gnu11 -Wall -Wextra -Wpedantic)

# Tells why there is no driver of a library.
miss() {
    echo "$2" > "$work/missing/$1"
    echo "$1: not built: $2"
}

# Runs the command that builds a driver. $2 is what a failure is put down to.
build() {
    local name=$1 reason=$2
    shift 2
    if "$@" > "$work/log/$name" 2>&1; then
        echo "$name: built"
    else
        rm -f "$work/drivers/$name"
        miss "$name" "$reason"
    fi
}

# A driver in C: its name, the package that it needs, and what it is linked with.
in_c() {
    local name=$1 package=$2
    shift 2
    build "$name" "apt-get install $package" cc -O2 "${warnings[@]}" -o "$work/drivers/$name" "$source/$name.c" "$@"
}

# A driver in Rust: its name, what a failure is put down to, its version, and the lines of its dependencies.
in_rust() {
    local name=$1 reason=$2 version=$3 folder=$work/rust/$1
    mkdir -p "$folder"
    cat > "$folder/Cargo.toml" <<TOML
[package]
name = "$name-driver"
version = "0.1.0"
edition = "2024"
publish = false

[workspace]

[[bin]]
name = "$name-driver"
path = "$source/rust/$name.rs"

[profile.release]
opt-level = 3
lto = "fat"
codegen-units = 1

[dependencies]
$4
TOML
    # From the folder itself, so that cargo finds its .cargo/config.toml.
    build "$name" "$reason" env -C "$folder" PEER_VERSION="$version" CARGO_TARGET_DIR="$folder/target" \
        "${CARGO:-cargo}" build --offline --release
    [ -e "$work/missing/$name" ] || cp "$folder/target/release/$name-driver" "$work/drivers/$name"
}

# A driver in Go: its name, the package that it needs, and its version.
in_go() {
    local name=$1 package=$2 version=$3 folder=$work/go/$1
    if ! command -v go > /dev/null; then
        miss "$name" "apt-get install golang-go $package"
        return
    fi
    rm -rf "$folder"
    mkdir -p "$folder"
    # The file in assembler is empty: with it the compiler takes functions without a body, which are linked by name.
    cp "$source/go/line.go" "$source/go/$name.go" "$folder"
    : > "$folder/empty.s"
    build "$name" "apt-get install $package" env -C "$folder" GO111MODULE=off GOPATH="$gopath" GOFLAGS= \
        GOCACHE="$work/go/cache" go build -ldflags "-X main.version=$version" -o "$work/drivers/$name" .
}

# A driver in a language without a compiler: its name, its file, the package, the command, and what loads the library.
interpreted() {
    local name=$1 file=$2 package=$3 command=$4
    shift 4
    if ! "$@" > "$work/log/$name" 2>&1; then
        miss "$name" "apt-get install $package"
        return
    fi
    printf '#!/bin/sh\nexec %s "%s"\n' "$command" "$source/$file" > "$work/drivers/$name"
    chmod +x "$work/drivers/$name"
    echo "$name: built"
}

package_version() {
    dpkg-query -W -f '${Version}' "$1" 2> /dev/null || echo unknown
}

library=${DNSNAMES_ARCHIVE:-$top/bindings/c/out/libdnsnames.a}
header=${DNSNAMES_HEADER:-$top/bindings/c}
if [ -e "$library" ] && [ -e "$header/dnsnames.h" ]; then
    version="$(sed -n 's/^VERSION = //p' "$top/bindings/c/Makefile"), SHA-256 $(sha256sum "$library" | cut -c 1-12).."
    build this "see WORK/log/this" cc -O2 "${warnings[@]}" -DLIBRARY_VERSION="\"$version\"" -I "$header" \
        -o "$work/drivers/this" "$source/this.c" "$library"
else
    miss this "its library for C isn't there: run bindings/build"
fi

if [ -z "${DOMAIN_SOURCE:-}" ]; then
    miss domain "no source given by the variable DOMAIN_SOURCE"
else
    version=$(sed -n 's/^version = "\(.*\)"/\1/p' "$DOMAIN_SOURCE/domain/Cargo.toml" | head -n 1)
    in_rust domain "see WORK/log/domain" "$version" \
        "domain = { path = \"$DOMAIN_SOURCE/domain\" }
octseq = { path = \"$DOMAIN_SOURCE/octseq\" }"
fi

in_c knot libknot-dev -lknot
in_c ldns libldns-dev -lldns
in_c libc libc6-dev -lresolv
in_c cares libc-ares-dev -lcares

registry=/usr/share/cargo/registry
trust=$(find "$registry" -maxdepth 1 -name 'trust-dns-proto-*' 2> /dev/null | head -n 1)
if [ -z "$trust" ]; then
    miss trust "apt-get install librust-trust-dns-proto-dev"
else
    mkdir -p "$work/rust/trust/.cargo"
    printf '[source.crates-io]\nreplace-with = "debian"\n[source.debian]\ndirectory = "%s"\n' "$registry" \
        > "$work/rust/trust/.cargo/config.toml"
    in_rust trust "see WORK/log/trust" "${trust##*-}" \
        'trust-dns-proto = { version = "0.22", default-features = false }'
fi

in_go gonet golang-golang-x-net-dev "$(package_version golang-golang-x-net-dev)"
in_go miekg golang-github-miekg-dns-dev "$(package_version golang-github-miekg-dns-dev)"

interpreted dnspython dnspython.py python3-dnspython /usr/bin/python3 /usr/bin/python3 -c 'import dns.name'
interpreted netdns netdns.pl libnet-dns-perl perl perl -MNet::DNS -e 1
