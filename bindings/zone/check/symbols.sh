#!/bin/sh
# The shared object has the calls that dnsnames_zone.h declares, no more and no fewer, and so has the archive. It needs
# the heap of the C library, and nothing else but moving and setting octets.
set -u
cd "$(dirname "$0")/.." || exit 2
failed=0
declared=$(sed -n 's/^[a-z].*[ *]\(dnsnames_zone_[a-z_]*\)(.*/\1/p' dnsnames_zone.h | sort -u)
exported=$(nm -D --defined-only out/libdnsnames_zone.so | sed -n 's/.* T //p' | sed 's/@.*//' | sort -u)
seen=$(nm -g --defined-only out/libdnsnames_zone.a | sed -n 's/^[^ ]* [A-Z] //p' | sort -u)
if [ "$declared" != "$exported" ] || [ "$declared" != "$seen" ]; then
    echo "declared, exported and seen differ:" $declared / $exported / $seen >&2
    failed=1
fi
for name in $(nm -u out/libdnsnames_zone.a | sed -n 's/^ *U //p' | sort -u); do
    case " memcpy memmove memset malloc realloc free " in
    *" $name "*) ;;
    *)
        echo "the archive needs $name" >&2
        failed=1
        ;;
    esac
done
exit "$failed"
