#!/usr/bin/env bash
# Compares t1check --edition 4 with what designers check outlines by, glyph by glyph, on 150 fonts of Debian's packages:
# ./bench/beside_designers.sh [FOLDER [ROWS]]
# These are FontForge's validation, AFDKO's checkoutlinesufo, and the warnings of its `tx -cff` and `tx -t1`. A message has a line if the report has one
# of the same glyph by a rule that speaks of the same (bench/beside_designers/compare.awk, which has the causes too). Prints how many glyphs
# each message names, and of these how many have a line, how many show a cause, and how many have neither. docs/DESIGNERS.md explains them.
# FOLDER holds the packages that bench/beside_designers/fonts lists, taken apart; without it they are fetched, 75 MB (run apt-get update first).
# ROWS is a folder that keeps what each program said: where it has a program's rows already, that program doesn't run again. Its file `compared`
# has a row for each glyph and message.
# T1CHECK=PROGRAM in the environment names another program than the built one.
# Debian's packages are fontforge-nox, python3-fontforge, afdko and afdko-bin; without one of these programs its messages are skipped.
set -u
export LC_ALL=C

usage='usage: bench/beside_designers.sh [FOLDER [ROWS]]   (FOLDER holds packages taken apart, ROWS what programs said)'
top=$(cd -P -- "$(dirname -- "$0")/.." && pwd -P) || exit 1
. "$top/bench/fonts.sh"
beside=$top/bench/beside_designers
checker=${T1CHECK:-$top/crates/t1check/out/t1check}
# Debian keeps AFDKO's programs here.
PATH=$PATH:/usr/libexec/afdko
# The messages of tx that are compared with rules. It prints a few of each, and how many more there are.
limited='negative hint|hint overlap|moveto sequence'

fail() {
    printf 'beside_designers.sh: %s\n' "$1" >&2
    exit 1
}

# Runs a program over all fonts, unless its rows are kept: PROGRAM FUNCTION.
rows_by() {
    [[ ! -f $rows/$2 ]] || return
    if ! type -P "$1" >/dev/null; then
        printf "skipped: %s, which isn't installed\n" "$1"
        return
    fi
    (cd "$folder" && "$2") >"$work/rows" && mv "$work/rows" "$rows/$2"
}

reports() {
    local font status
    while IFS= read -r font; do
        status=0
        timeout 600 "$checker" --edition 4 "$font" >"$work/given" 2>&1 </dev/null || status=$?
        ((status <= 2)) || fail "status $status on $font: $(cat "$work/given")"
        awk -v font="$font" '{ print font "\t" $0 }' "$work/given"
    done <"$work/names"
}

by_fontforge() {
    fontforge -lang=py -script "$beside/fontforge.py" <"$work/names" 2>/dev/null
}

# It converts a font by tx, and decimals stay by -d. Overlaps, which take it longest, are FontForge's here.
by_checkoutlines() {
    local font
    while IFS= read -r font; do
        timeout 600 checkoutlinesufo --no-overlap-checks --all -d "$font" 2>&1 </dev/null | tr '\r' '\n' | awk -v font="$font" '
            {
                glyph = $1
                while (match($0, /(Coincident points|Flat curve|Colinear line) at \([^)]*\)/)) {
                    message = substr($0, RSTART, RLENGTH)
                    $0 = substr($0, RSTART + RLENGTH)
                    point = message
                    sub(/ at .*/, "", message)
                    gsub(/.*\(|\)| /, "", point)
                    split(point, at, ",")
                    print font "\t" glyph "\tcheckoutlines: " message "\t" at[1] + 0 "," at[2] + 0
                }
            }'
    done <"$work/names"
}

# Asks tx for glyphs of a font by their numbers: FONT FORM FIRST LAST. By halves, as long as a message that is compared isn't printed for each glyph.
ask_tx() {
    local middle=$((($3 + $4) / 2))
    timeout 60 tx "-$2" -g "$3-$4" "$1" /dev/null >/dev/null 2>"$work/told" </dev/null
    if (($3 < $4)) && grep -Eq "additional reports of '($limited)" "$work/told"; then
        ask_tx "$1" "$2" "$3" "$middle"
        ask_tx "$1" "$2" $((middle + 1)) "$4"
        return
    fi
    # `tx: (cfw) hint overlap <A>`; a message without a glyph is one of the font.
    sed -n 's/^tx: ([a-z0-9]*) //p' "$work/told" | sort -u | awk -v font="$1" -v form="$2" '
        /^There are/ { next }
        {
            glyph = ""
            if (match($0, /<[^>]*>/)) {
                glyph = substr($0, RSTART + 1, RLENGTH - 2)
                sub(/ *<[^>]*>/, "")
            }
            print font "\t" glyph "\ttx" (form == "cff" ? "" : " -" form) ": " $0
        }'
}

by_tx() {
    local font glyphs
    while IFS= read -r font; do
        glyphs=$(tx -mtx -0 "$font" 2>/dev/null </dev/null | grep -c '^glyph\[')
        ((glyphs > 0)) || continue
        ask_tx "$font" cff 0 $((glyphs - 1))
        ask_tx "$font" t1 0 $((glyphs - 1))
    done <"$work/names"
}

# Looks at the stems of the glyphs whose overlapped hints have no line, for a cause, and writes the file `compared` anew with it.
look_at_stems() {
    local state message font glyph cause
    while IFS=$'\t' read -r state message font glyph; do
        if [[ $state == without && $message == 'FontForge: Overlapped hints' ]]; then
            cause=$(cd "$folder" && timeout 600 "$checker" --edition 4 --trace "$glyph" "$font" 2>/dev/null </dev/null | awk -f "$beside/stems.awk")
            state=${cause:+cause: }${cause:-without}
        fi
        printf '%s\t%s\t%s\t%s\n' "$state" "$message" "$font" "$glyph"
    done <"$work/compared" >"$rows/compared"
}

(($# <= 2)) || fail "$usage"
[[ -x $checker ]] || fail "t1check isn't built; bin/t1check --build builds it"
work=$(mktemp -d) || exit 1
trap 'rm -rf "$work"' EXIT

folder=${1:-$work/fonts}
rows=${2:-$work/kept}
(($# >= 1)) || fetch_fonts "$folder"
[[ -d $folder ]] || fail "no folder $folder"
mkdir -p "$rows" || exit 1
folder=$(realpath -- "$folder")
rows=$(realpath -- "$rows")
checker=$(realpath -- "$checker")
list_fonts "$folder"

rows_by "$checker" reports
rows_by fontforge by_fontforge
rows_by checkoutlinesufo by_checkoutlines
rows_by tx by_tx

for by in by_fontforge by_checkoutlines by_tx; do
    [[ ! -f $rows/$by ]] || cat "$rows/$by"
done >"$work/said"
awk -F '\t' '$3 == "facts"' "$work/said" >"$work/facts"
awk -F '\t' '$3 != "facts"' "$work/said" >"$work/messages"
awk -f "$beside/compare.awk" "$rows/reports" "$work/facts" "$work/messages" >"$work/compared"
look_at_stems
printf '%d fonts; glyphs with a message, and of these with a line, by a cause, without\n' "$(wc -l <"$work/names")"
awk -F '\t' '
    { count[$2]++; state[$2, $1 ~ /^cause/ ? "cause" : $1]++ }
    $1 ~ /^cause/ { cause[$2 ": " substr($1, 8)]++ }
    END {
        for (message in count)
            if (state[message, "alone"]) print "2\t" message ": " count[message] ", no rule"
            else printf "0\t%s: %d, %d, %d, %d\n", message, count[message], state[message, "line"], state[message, "cause"], state[message, "without"]
        for (name in cause) print "1\t    " name ": " cause[name]
    }' "$rows/compared" | sort | cut -f 2
