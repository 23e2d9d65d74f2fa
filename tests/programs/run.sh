#!/usr/bin/env bash
# Runs the programs list_payload and show_card on inputs of every kind, and compares what they print with document 01.
#
#   tests/programs/run.sh [FOLDER]
#
# FOLDER holds the programs. Where none is named they are crates/list_payload/out/list_payload and
# crates/show_card/out/show_card, which `rt run < stdin` leaves there when it is run in each crate's folder. The inputs and
# what is expected of them are in cases.py. A line is printed for each case, and 'N passed, M failed' at the end.
set -eu
here=$(cd "$(dirname "$0")" && pwd)
programs=()
for name in list_payload show_card; do
    program=${1:-$here/../../crates/$name/out}/$name
    [ -x "$program" ] || { echo "no program $program: run 'rt run < stdin' in crates/$name first" >&2; exit 2; }
    programs+=("$program")
done
exec python3 -B "$here/cases.py" "${programs[@]}"
