#!/bin/sh
# Times `open_eexec` on a section of 16 MB, binary and hexadecimal, beside plain Rust loops that are
# built in the same run: ./bench/eexec.sh
# It proves and builds a program over a copy of the crate in a temporary folder, and wants `rt` and
# `rustc`.
set -eu
top=$(cd -P -- "$(dirname "$0")/.." && pwd -P)
. "$top/bench/table.sh"
work=$(mktemp -d)
trap 'rm -rf "$work"' EXIT

mkdir -p "$work/crates/timing/src"
cp -R "$top/crates/t1_seal" "$work/crates/"
cp "$top/bench/eexec/main.txt" "$work/crates/timing/src/main.rt"
cp "$top/bench/eexec/plain.txt" "$work/plain.rs"
printf 't1_seal: hex thiserror\ntiming: t1_seal hex\n' >"$work/crates.txt"

rustc -O --edition 2024 -o "$work/plain" "$work/plain.rs"
if ! (cd "$work/crates/timing" && rt run) >"$work/log" 2>&1; then
    cat "$work/log" >&2
    exit 1
fi

"$work/crates/timing/out/timing" >"$work/ours"
"$work/plain" >"$work/theirs"

# Each line is a kind, the section's bytes, the best time in microseconds and a sum over the texts.
paste -d ' ' "$work/ours" "$work/theirs" | awk '
    $4 != $8 { print "the texts of " $1 " differ" >"/dev/stderr"; failed = 1 }
    { printf "%s section\tMB/s\t%.0f\t%.0f\n", $1, $2 / $3, $6 / $7 }
    END { exit failed }' >"$work/rows"
print_table 'plain Rust' <"$work/rows"
