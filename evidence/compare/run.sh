#!/usr/bin/env bash
# Builds the drivers of the libraries that are there, asks all of them all cases, and writes the two pages of it.
#
#   evidence/compare/run.sh WORK FOLDER    writes FOLDER/COMPARISON.md (docs has the last one), and cases.md beside this script
#   evidence/compare/run.sh WORK           prints both
#
# WORK is the folder to build in; build.sh tells the variables. What is built, and what isn't and why, goes to
# standard error. The last line has the counts of cases, of libraries, and of cases where this project differs from the
# standard's text and no page states it, which set the status to 1; those that a page states are counted beside them.
set -euo pipefail
here=$(cd "$(dirname "$0")" && pwd)
work=${1:?a folder to build in}
"$here/build.sh" "$work" >&2
python=$(command -v /usr/bin/python3 || command -v python3)
"$python" -B "$here/report.py" "$@"
