#!/usr/bin/env bash
# Compares the messages that this project writes with those that dnspython and libknot write and read.
#
#   evidence/messages/run.sh WORK            prints the page
#   evidence/messages/run.sh WORK --write    writes it, last-run.md beside this script, and the rows of the table of
#                                            messages (crates/conformance_messages/rebuild.rows)
#   evidence/messages/run.sh WORK --random COUNT SEED    compares so many other messages, and prints what was found
#
# WORK      the folder to build the program with libknot in
# MESSAGES  the program that answers the table of messages (crates/conformance_messages/out/conformance_messages, which
#           `rt check` makes there)
#
# It needs Debian's python3-dnspython, libknot-dev and a C compiler. The last line has the counts of messages and of
# differences; the status is 1 if there are any.
set -euo pipefail
here=$(cd "$(dirname "$0")" && pwd)
top=$(dirname "$(dirname "$here")")
work=${1:?a folder to build in}
mkdir -p "$work"
work=$(cd "$work" && pwd)
program=${MESSAGES:-$top/crates/conformance_messages/out/conformance_messages}
cc -O2 -std=gnu11 -Wall -Wextra -Wpedantic -o "$work/knot" "$here/knot.c" -lknot
python=$(command -v /usr/bin/python3 || command -v python3)
"$python" -B "$here/compare.py" "$work/knot" "$program" "${@:2}"
