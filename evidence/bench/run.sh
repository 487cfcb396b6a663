#!/bin/sh
# Measures the port beside the Rust crate and other libraries, on the same inputs, and prints tables.
#
#   evidence/bench/run.sh UPSTREAM WORK [--quick WORD | --writing | --once] [--write]
#
# UPSTREAM  a folder with the Rust crates `domain` 0.12.3 and `octseq` 0.5, each unpacked in a folder of its
#           name, as `cargo download` or https://crates.io/crates/domain gives them; nothing of them is here
# WORK      a folder to build in, kept for the next run
# --quick   one short run of the operations whose name has WORD in it (`parse,skip`: these), without other
#           libraries
# --writing the messages that are written alone, with other libraries; and their instructions, where valgrind is
# --once    nothing is measured: each operation is called once on both sides, and the results are compared
# --write   writes the tables into rows.md beside this script, and two pictures of them; with --writing those of
#           this run alone, and leaves the others as they are
#
# It needs `rt`, cargo, python3 and cc. The library is proved first, over what checks of the repository and
# earlier runs kept; then only what changed is built. Of other libraries those are measured that Debian's
# packages libknot-dev, libldns-dev and librust-trust-dns-proto-dev have put on the machine.
set -eu
upstream=$(cd "${1:?the folder of the Rust crates}" && pwd)
work=${2:?a folder to build in}
shift 2
quick='' once='' write='' word=''
while [ $# -gt 0 ]; do
    case $1 in
    --quick) quick=${2:?a word of operations} && shift ;;
    --writing) word=write_ ;;
    --once) once=--once ;;
    --write) write=--write ;;
    *) echo "run.sh: $1?" >&2 && exit 2 ;;
    esac
    shift
done
here=$(cd "$(dirname "$0")" && pwd)
top=$(cd "$here/../.." && pwd)
mkdir -p "$work/port/crates" "$work/rust" "$work/out"
work=$(cd "$work" && pwd)

# The sources of the crates that the calls stand on, and what checks of the repository kept of them, as links.
lay_out() {
    to=$work/port/crates/$1
    mkdir -p "$to/out"
    for part in src specs proofs; do
        rm -rf "${to:?}/$part"
        [ ! -d "$top/crates/$1/$part" ] || cp -a "$top/crates/$1/$part" "$to/"
    done
    kept=$top/crates/$1/out/rlib
    if [ -d "$kept" ]; then
        rm -rf "$to/out/rlib"
        cp -al "$kept" "$to/out/" 2> /dev/null || cp -a "$kept" "$to/out/"
    fi
}

# The lines of crates.txt of these crates and of all that they stand on.
lines_of() {
    awk -F : -v wanted="$*" '
        { sub(/#.*/, "") }
        NF > 1 { split($1, head, " "); name[++count] = head[1]; line[head[1]] = $0; below[head[1]] = $2 }
        END {
            queued = split(wanted, queue, " ")
            for (at = 1; at <= queued; at++) {
                if (queue[at] in found) continue
                found[queue[at]] = 1
                lower_count = split(below[queue[at]], lower, " ")
                for (it = 1; it <= lower_count; it++) queue[++queued] = lower[it]
            }
            for (at = 1; at <= count; at++) if (name[at] in found) print line[name[at]]
        }' "$top/crates.txt"
}

# The port as a static library. Its sources end in .in here, since the gate reads no Rattle outside of the
# crates that it proves.
build_port() {
    cp "$top/HANDLES" "$work/port/"
    uses="arrayvec octseq domain"
    lines_of $uses > "$work/port/crates.txt"
    sed -n 's/^\([a-z_0-9]*\).*:.*/\1/p' "$work/port/crates.txt" | while read -r crate; do
        lay_out "$crate"
    done
    echo "dnsspeed staticlib: $uses" >> "$work/port/crates.txt"
    to=$work/port/crates/dnsspeed
    mkdir -p "$to"
    rm -rf "${to:?}/src" "$to/specs" "$to/proofs"
    (cd "$here/port" && find . -name '*.in') | while read -r file; do
        mkdir -p "$to/$(dirname "$file")"
        cp "$here/port/$file" "$to/${file%.in}"
    done
    (cd "$to" && rt lib >&2)
    lib=$to/out/libdnsspeed.a
}

# The benchmark, with the Rust crates and that library.
build_rust() {
    cp -a "$here/rust/." "$work/rust/"
    printf '[package]\nname = "bench"\nversion = "0.1.0"\nedition = "2024"\npublish = false\n
[workspace]\n
[dependencies]\ndomain = { path = "%s/domain" }\noctseq = { path = "%s/octseq" }\n
[profile.release]\nopt-level = 3\nlto = "fat"\ncodegen-units = 1\n' "$upstream" "$upstream" > "$work/rust/Cargo.toml"
    kit=$(dirname "$(rt doc)")
    ops=$(nm "$lib" 2> /dev/null | sed -n 's/.* T dnsbench_//p' | xargs)
    (cd "$work/rust" && PORT_LIB=$lib PORT_C=$kit/c PORT_OPS=$ops cargo build --release >&2)
    bench=$work/rust/target/release/bench
}

# The libraries of others, where they are installed.
build_peers() {
    mkdir -p "$work/peers/trust/.cargo"
    cc -O2 -o "$work/peers/knot" "$here/peers/knot.c" -lknot 2> /dev/null || echo 'no libknot here' >&2
    cc -O2 -o "$work/peers/ldns" "$here/peers/ldns.c" -lldns 2> /dev/null || echo 'no ldns here' >&2
    registry=$(dpkg -L librust-trust-dns-proto-dev 2> /dev/null | sed -n 's,/registry/.*,/registry,p' | head -1)
    if [ -n "$registry" ]; then
        cp -a "$here/peers/trust/." "$work/peers/trust/"
        printf '[source.crates-io]\nreplace-with = "debian"\n[source.debian]\ndirectory = "%s"\n' "$registry" \
            > "$work/peers/trust/.cargo/config.toml"
        (cd "$work/peers/trust" && cargo build --offline --release >&2)
    else
        echo 'no trust-dns-proto here' >&2
    fi
}

# Prints the instructions that each implementation takes for a message, as valgrind counts them. What it takes in one
# round is left out, so that reading the files isn't in it.
count_instructions() {
    command -v valgrind > /dev/null || return 0
    messages=$((64 * 16))
    for op in write_query write_answer write_referral; do
        for peer in domain-scanning domain-tree domain-hashed port; do
            count_one "$peer" "$bench" "$work/inputs" --rounds "$peer"
        done
        count_one libknot "$work/peers/knot" "$work/inputs" --rounds
        count_one ldns "$work/peers/ldns" "$work/inputs" --rounds
        count_one trust-dns "$work/peers/trust/target/release/trust" "$work/inputs" --rounds
    done
}

count_one() {
    peer=$1
    shift
    [ -x "$1" ] || return 0
    few=$(instructions_of "$@" 1 "$op")
    many=$(instructions_of "$@" 11 "$op")
    printf '%s\tcount_%s\t%s.writes\t%d\t-\n' "$peer" "$op" "${op#write_}" $(((many - few) / (10 * messages)))
}

instructions_of() {
    valgrind --tool=callgrind --callgrind-out-file=/dev/null "$@" 2>&1 | sed -n 's/.*Collected : //p'
}

build_port
build_rust
python3 "$here/inputs.py" "$work/inputs"
rm -f "$work"/out/*.tsv
if [ -n "$once" ]; then
    exec "$bench" "$work/inputs" --once
fi
"$bench" "$work/inputs" --once >&2
if [ -n "$quick" ]; then
    "$bench" "$work/inputs" --turns 100 "$quick" > "$work/out/1.tsv"
else
    build_peers
    for turn in 1 2 3; do
        "$bench" "$work/inputs" --turns 200 $word > "$work/out/$turn.tsv"
        for peer in knot ldns trust/target/release/trust; do
            [ ! -x "$work/peers/$peer" ] || "$work/peers/$peer" "$work/inputs" $word >> "$work/out/$turn.tsv"
        done
    done
    count_instructions > "$work/out/instructions.tsv"
fi
python3 "$here/table.py" $write "$work"/out/*.tsv
