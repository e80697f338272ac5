#!/usr/bin/env bash
# Compares the glyphs that FreeType doesn't load with those that K04 names, over the fonts below a folder: bench/beside_freetype.sh FOLDER
# Prints each font that t1check takes and FreeType doesn't open, each glyph that one of both names alone, and how many both name. Ends with 1 where one
# names a glyph alone. Fonts are those with the suffixes .pfa, .pfb and .t1; bench/beside_interpreters/load.txt loads their glyphs.
# Debian's package is libfreetype-dev.
set -u
export LC_ALL=C

top=$(cd -P -- "$(dirname -- "$0")/.." && pwd -P) || exit 3

fail() {
    printf 'beside_freetype.sh: %s\n' "$1" >&2
    exit 3
}

if (($# != 1)) || [[ ! -d $1 ]]; then
    fail 'usage: bench/beside_freetype.sh FOLDER'
fi
work=$(mktemp -d) || exit 3
trap 'rm -rf "$work"' EXIT
# shellcheck disable=SC2046
cc -O1 -o "$work/load" -x c "$top/bench/beside_interpreters/load.txt" -x none $(pkg-config --cflags --libs freetype2) || fail "load.txt can't be built"

status=0
"$top/bin/t1check-all" --no-settings --edition 3 --only K04 --long "$1" >"$work/lines" 2>/dev/null </dev/null || status=$?
((status <= 2)) || fail "t1check-all ended with status $status"
sed -n 's/^\(.*\): [0-9]*: glyph \([^ ]*\) .* K04 .*/\1: \2/p' "$work/lines" | sort -u >"$work/named"
sed -n 's/^\(.*\): refused: .*/\1/p' "$work/lines" | sort -u >"$work/refused"
find "$1" -type f \( -iname '*.pfa' -o -iname '*.pfb' -o -iname '*.t1' \) | sort | comm -23 - "$work/refused" >"$work/fonts"
while IFS= read -r font; do
    timeout 20 "$work/load" "$font" >"$work/said" 2>&1
    (($? != 1)) || printf '%s: FreeType does not open it\n' "$font" >&2
    sed -n 's/^glyph [0-9]*, \([^ ]*\): error .*/\1/p' "$work/said" | while read -r glyph; do printf '%s: %s\n' "$font" "$glyph"; done
done <"$work/fonts" | sort -u >"$work/unloaded"

comm -23 "$work/named" "$work/unloaded" | sed 's/$/: K04 alone/'
comm -13 "$work/named" "$work/unloaded" | sed 's/$/: FreeType alone/'
printf '%d fonts: both name %d glyphs\n' "$(wc -l <"$work/fonts")" "$(comm -12 "$work/named" "$work/unloaded" | wc -l)"
cmp -s "$work/named" "$work/unloaded"
