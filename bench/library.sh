#!/usr/bin/env bash
# library [PATH OF dwline]: the instructions (by callgrind) of dl_check and of dl_find_all for 10,000 addresses, over the
# library that `make lib` has built, beside those of `dwline check` and `dwline addr`, on the section that bench/run.py
# builds; and the library's size.
set -euo pipefail
dwline=$(realpath "${1-$(dirname "$0")/../crates/dwline/out/dwline}")
cd "$(dirname "$0")/out"
cc -O2 -I../../include -o library ../library.c ../../out/libboxantrel.a
"$dwline" dump < one | awk '/^row / && NR % 7 == 0 {print $2}' | shuf -n 10000 --random-source=<(yes) > addresses

# How many instructions a command takes.
count() {
    valgrind --tool=callgrind --callgrind-out-file=/dev/null "$@" 2>&1 > /dev/null | sed -n 's/.*Collected : //p'
}

mapfile -t addresses < addresses
read_section=$(count ./library read one)
read_both=$(count ./library read one addresses)
echo "dl_check: $(($(count ./library check one) - read_section)); dwline check: $(count "$dwline" check < one)"
echo "dl_find_all: $(($(count ./library find one addresses) - read_both))"
echo "dwline addr: $(count "$dwline" addr - "${addresses[@]}" < one)"
wc -c ../../out/libboxantrel.a ../../out/libboxantrel.so
