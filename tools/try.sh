#!/usr/bin/env bash
# Runs dwline with these words, without a proof: its code is compiled with checks that stop it at a wrong index or sum, and
# nothing is kept. Files are named by relative paths.
set -euo pipefail

data=()
for word; do
    [[ ! -f $word ]] || data+=(--data "$word=$PWD/$word")
done
cd "$(dirname "$0")/../crates/dwline"
exec ../../tools/rt try "${data[@]}" -- "$@"
