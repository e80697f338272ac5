#!/bin/sh
# Prints how many MB a second the scanner reads, on 16 MB of each of several texts, and what a call of `next` costs
# behind a token that isn't closed. The program is proved and built in a folder of its own.
set -e
here=$(cd -P -- "$(dirname "$0")" && pwd -P)
. "$here/table.sh"
work=$(mktemp -d)
trap 'rm -rf "$work"' EXIT
mkdir -p "$work/crates/scan_bench/src"
cp -r "$here/../crates/t1_scan" "$work/crates/t1_scan"
cp "$here/scan/main.txt" "$work/crates/scan_bench/src/main.rt"
printf 't1_scan: thiserror\nscan_bench: t1_scan\n' >"$work/crates.txt"
cd "$work/crates/scan_bench"
rt run >"$work/build.log" 2>&1 || { cat "$work/build.log" >&2; exit 1; }
out/scan_bench >"$work/rows"
print_table <"$work/rows"
