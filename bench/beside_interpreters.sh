#!/usr/bin/env bash
# Opens fonts with a byte changed, in which t1check --edition 4 finds nothing new, by FreeType and by Ghostscript:
# ./bench/beside_interpreters.sh REFUSED [N [SEED [FOLDER]]]
# bench/beside_interpreters/mutate.txt changes one byte of a real font, takes it out or puts one in: in the clear text, in the private text, or in a
# charstring. It makes N fonts (300 by default) by SEED (1 by default), of those of bench/beside_designers/fonts that have up to 20,000 bytes.
# A font counts as clean if each line of its report is also one of the font that it was made of. FreeType opens each clean one and loads its
# glyphs, and Ghostscript shows them. Where one of them refuses the font or a glyph, the font is kept in the folder REFUSED, and a file .why beside it
# has what was changed and what was said.
# FOLDER holds the packages, taken apart; without it they are fetched, 75 MB (run apt-get update first).
# T1CHECK=PROGRAM in the environment names another program than the built one.
# Debian's packages are libfreetype-dev and ghostscript; without Ghostscript that half is skipped. Each run has 20 seconds, of t1check 60.
set -u
export LC_ALL=C

usage='usage: bench/beside_interpreters.sh REFUSED [N [SEED [FOLDER]]]   (N is a number of fonts up to 99999)'
top=$(cd -P -- "$(dirname -- "$0")/.." && pwd -P) || exit 1
. "$top/bench/fonts.sh"
beside=$top/bench/beside_interpreters
checker=${T1CHECK:-$top/crates/t1check/out/t1check}
most_bytes=20000

fail() {
    printf 'beside_interpreters.sh: %s\n' "$1" >&2
    exit 1
}

# The lines of a font's report without their numbers, to a file. Fails if the font is refused.
report() {
    local status=0
    timeout 60 "$checker" --edition 4 "$1" >"$work/given" 2>/dev/null </dev/null || status=$?
    sed 's/^[0-9]*: //' "$work/given" | sort -u >"$2"
    ((status <= 1))
}

# Whether FreeType opens a font and loads its glyphs: sets `said`.
by_freetype() {
    local status=0
    said=$(timeout 20 "$work/load" "$1" 2>&1) || status=$?
    ((status <= 2)) || said="not opened: status $status"
    [[ -z $said ]]
}

by_ghostscript() {
    local status=0
    said=$(timeout 20 gs -q -dSAFER --permit-file-read="$1" -dBATCH -dNOPAUSE -sDEVICE=pbmraw -g100x100 -r72 -sOutputFile=/dev/null \
        -sFONT="$1" "$beside/load.ps" 2>&1 </dev/null) || status=$?
    ((status == 0)) || said="not opened: status $status: $said"
    [[ $said == 'shown '[1-9]* && $said != *$'\n'* ]]
}

# Counts what a program said of a clean font, and keeps the font: PROGRAM NUMBER.
refuse() {
    local kind=glyphs
    [[ $said != *'not opened'* && $said != 'shown 0' ]] || kind=font
    ((refused["$1 $kind"] += 1))
    cp "$work/mutant.pfb" "$kept/$2.pfb"
    printf '%s: %s\n' "$1" "$said" >>"$kept/$2.why"
}

(($# >= 1 && $# <= 4)) || fail "$usage"
count=${2:-300}
seed=${3:-1}
[[ $count =~ ^[1-9][0-9]{0,4}$ && $seed =~ ^[0-9]{1,9}$ ]] || fail "$usage"
[[ -x $checker ]] || fail "t1check isn't built; bin/t1check --build builds it"
work=$(mktemp -d) || exit 1
trap 'rm -rf "$work"' EXIT
mkdir -p "$1" || exit 1
kept=$(realpath -- "$1")
checker=$(realpath -- "$checker")
folder=${4:-$work/fonts}
(($# >= 4)) || fetch_fonts "$folder"
[[ -d $folder ]] || fail "no folder $folder"
folder=$(realpath -- "$folder")
list_fonts "$folder"
cc -O1 -o "$work/mutate" -x c "$beside/mutate.txt" || fail "mutate.txt can't be built"
# shellcheck disable=SC2046
cc -O1 -o "$work/load" -x c "$beside/load.txt" -x none $(pkg-config --cflags --libs freetype2) || fail "load.txt can't be built"
has_ghostscript=''
if type -P gs >/dev/null; then has_ghostscript=yes; else printf "skipped: Ghostscript, which isn't installed\n"; fi

# Base fonts, those that both programs take.
fonts=()
while IFS= read -r font; do
    (($(stat -c %s -- "$folder/$font") <= most_bytes)) || continue
    by_freetype "$folder/$font" || continue
    [[ -z $has_ghostscript ]] || by_ghostscript "$folder/$font" || continue
    report "$folder/$font" "$work/base.${#fonts[@]}" || continue
    fonts+=("$folder/$font")
done <"$work/names"
((${#fonts[@]} > 0)) || fail "no font of up to $most_bytes bytes"

clean=0
declare -A refused=()
for ((number = 0; number < count; number += 1)); do
    base=$((number % ${#fonts[@]}))
    "$work/mutate" "${fonts[base]}" $((seed * 100000 + number)) >"$work/mutant.pfb" 2>"$work/change" || fail "$(cat "$work/change")"
    report "$work/mutant.pfb" "$work/lines" || continue
    [[ -z $(comm -23 "$work/lines" "$work/base.$base") ]] || continue
    ((clean += 1))
    name=$seed.$number
    printf '%s: %s\n' "${fonts[base]##*/}" "$(cat "$work/change")" >"$work/why"
    cp "$work/why" "$kept/$name.why"
    by_freetype "$work/mutant.pfb" || refuse FreeType "$name"
    [[ -z $has_ghostscript ]] || by_ghostscript "$work/mutant.pfb" || refuse Ghostscript "$name"
    [[ -f $kept/$name.pfb ]] || rm -f "$kept/$name.why"
done

printf '%d fonts of %d, %d of them clean\n' "$count" "${#fonts[@]}" "$clean"
for program in FreeType ${has_ghostscript:+Ghostscript}; do
    printf '%s: %d not opened, %d with glyphs that it refuses\n' "$program" "${refused["$program font"]:-0}" "${refused["$program glyphs"]:-0}"
done
((clean == 0)) || printf 'refused fonts are in %s\n' "$kept"
