#!/bin/sh
# symbols.sh "NAME..": what the archive needs is among these names, it writes to no data of its own, and the shared
# object and the archive have the calls that dnsnames.h declares, no more and no fewer.
set -u
failed=0

needed=$(nm -u out/libdnsnames.a | sed -n 's/^ *U //p' | sort -u)
for name in $needed; do
    case " $1 " in
    *" $name "*) continue ;;
    esac
    if ! nm out/libdnsnames.a | grep -q " T $name\$"; then
        echo "the archive needs $name" >&2
        failed=1
    fi
done

written=$(nm out/libdnsnames.a | grep -c ' [BbDdCc] ')
if [ "$written" -ne 0 ]; then
    echo "the archive has $written pieces of data that is written" >&2
    failed=1
fi

declared=$(sed -n 's/^[a-z].*[ *]\(dnsnames_[a-z_]*\)(.*/\1/p' dnsnames.h | grep -v '^dnsnames_strerror$' | sort -u)
exported=$(nm -D --defined-only out/libdnsnames.so | sed -n 's/.* T //p' | sed 's/@.*//' | sort -u)
if [ "$declared" != "$exported" ]; then
    echo "declared in dnsnames.h, and exported by the shared object, differ:" $declared / $exported >&2
    failed=1
fi
seen=$(nm -g --defined-only out/libdnsnames.a | sed -n 's/^[^ ]* [A-Z] //p' | sort -u)
if [ "$seen" != "$exported" ]; then
    echo "other names are seen in the archive than in the shared object:" $seen / $exported >&2
    failed=1
fi

version=$(sed -n 's/^#define DNSNAMES_VERSION "\(.*\)"/\1/p' dnsnames.h)
if [ ! -e "out/libdnsnames.so.$version" ]; then
    echo "dnsnames.h and the Makefile have other versions" >&2
    failed=1
fi
[ "$failed" -eq 0 ] && echo "needs" $needed and nothing else, $(echo "$exported" | wc -l) calls
exit "$failed"
