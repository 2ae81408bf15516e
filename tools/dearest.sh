#!/usr/bin/env bash
# Tells which modules of crates took the longest to check, of those that the last check of each crate made: the time from one
# kept file to the next, in seconds, the crate and the module. After a check from nothing by one process that is what each cost;
# by several, it is no less than its share. Where a crate was checked more than once, a pause between two checks counts for the
# module after it.
#
# Usage: tools/dearest.sh [NAME..]      20 modules of these crates, or of all
set -euo pipefail
cd "$(dirname "$0")/.."

# How many modules are told.
readonly MOST=20

# The modules of one crate, each with the seconds since the one before it.
modules_of() {
    find "crates/$1/out/incremental" -name '*.oantt' -printf '%T@ %f\n' | sort -n |
        awk -v crate="$1" '{ sub(/\.oantt$/, "", $2) } NR > 1 { printf "%8.2f %-10s %s\n", $1 - last, crate, $2 } { last = $1 }'
}

if [ $# = 0 ]; then
    for folder in crates/*/out/incremental; do
        name=${folder#crates/}
        set -- "$@" "${name%%/*}"
    done
fi
for name in "$@"; do
    modules_of "$name"
done | sort -rn | sed "${MOST}q"
