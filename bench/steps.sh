#!/bin/sh
# Prints how long a step of a glyph takes in the machine alone, with all watchers, and by a walk, over the fonts
# below a folder, which are told by their names' ends: ./bench/steps.sh FOLDER
# The program is proved and built in a folder of its own, over what the crates' out folders keep of earlier proofs.
set -eu
top=$(cd -P -- "$(dirname "$0")/.." && pwd -P)
if [ $# -ne 1 ] || [ ! -d "$1" ]; then
    echo 'usage: bench/steps.sh FOLDER   (FOLDER holds fonts)' >&2
    exit 2
fi
folder=$(cd "$1" && pwd)
work=$(mktemp -d)
trap 'rm -rf "$work"' EXIT

. "$top/bench/crates.sh"
. "$top/bench/table.sh"
copy_crates "$top" "$work"
mkdir -p "$work/crates/timing/src" "$work/crates/timing/proofs/watch_glyph"
cp "$top/bench/steps/main.txt" "$work/crates/timing/src/main.rt"
for proof in Invariants Answers; do
    cp "$top/bench/steps/watch_glyph/$proof.txt" "$work/crates/timing/proofs/watch_glyph/$proof.antt"
done
echo 'timing: t1_font t1_char t1_rules t1_report' >>"$work/crates.txt"

cd "$work/crates/timing"
if ! rt run >"$work/log" 2>&1 </dev/null; then
    cat "$work/log" >&2
    exit 1
fi
find -L "$folder" -type f \( -name '*.pfb' -o -name '*.pfa' -o -name '*.t1' \) | sort | out/timing >"$work/rows"
print_table <"$work/rows"
