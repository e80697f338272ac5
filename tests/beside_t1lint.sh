#!/bin/sh
# Compares t1lint's messages with the report of edition 3: each message has to have a line in the same entry, glyph or Subr of its font, by a
# rule that speaks of the same (tests/beside/lines.awk). Prints each message without a line, unless the font shows a cause of
# tests/beside/causes.awk, explained in docs/T1LINT.md; counts these by cause. The line before the last counts messages, the last fonts.
#
#     tests/beside_t1lint.sh            fonts that tests/beside/made describes, and those in tests/program and tests/draw
#     tests/beside_t1lint.sh FOLDER     all .pfa, .pfb and .t1 below FOLDER
#     T1CHECK=PROGRAM                   in the environment: another program than the built one
#
# A made font must have the message and the whole report that its row has. Beside an empty report the message must be printed.
set -u
LC_ALL=C
export LC_ALL

top=$(CDPATH='' cd -P -- "$(dirname "$0")/.." && pwd -P) || exit 1
beside=$top/tests/beside
program=${T1CHECK:-$top/crates/t1check/out/t1check}
if ! command -v t1lint >/dev/null; then
    echo "skipped: messages of t1lint, which isn't here (Debian: lcdf-typetools)"
    printf '0 messages, 0 without a line\n0 passed, 0 failed\n'
    exit 0
fi
if [ -z "${T1CHECK:-}" ] && ! "$top/bin/t1check" --build; then
    echo 'failed: bin/t1check --build'
    printf '0 messages, 0 without a line\n0 passed, 1 failed\n'
    exit 1
fi
scratch=$(mktemp -d) || exit 1
trap 'rm -rf "$scratch"' EXIT
trap 'exit 1' HUP INT TERM
passed=0
failed=0
: >"$scratch/results"

pass() {
    passed=$((passed + 1))
}

fail() {
    failed=$((failed + 1))
    printf 'failed: %s\n' "$1"
}

# Writes t1lint's messages on a font, a line each: `font`, `glyph NAME` or `subr N`, a tab, the message. The limits are there since t1lint reads
# `[-.5]` without end.
read_messages() {
    # The shell reports a program that a signal ends, which is left out here.
    # shellcheck disable=SC3045
    (
        exec 2>/dev/null
        ulimit -v 1000000
        timeout 60 t1lint "$1" >"$scratch/printed" </dev/null
        exit $?
    )
    [ $? -le 1 ] || echo "skipped: t1lint doesn't read ${1#"$top"/} to its end"
    awk -v font="$1: " '
        index($0, font) == 1 { $0 = substr($0, length(font) + 1) }
        /^While interpreting / {
            where = $3 == "subr" ? "subr " $4 : "glyph " substr($0, length("While interpreting \047") + 1)
            sub(/\047?:$/, "", where)
            next
        }
        { if (!sub(/^  +/, "")) where = "font"; print where "\t" $0 }
    ' "$scratch/printed" >"$scratch/messages"
}

# Writes the steps of all glyphs of a font, each after its glyph's name and a tab.
trace_all() {
    sed -n 's/^glyph //p' "$scratch/text" | while IFS= read -r name; do
        "$program" --edition 3 --trace "$name" "$1" 2>/dev/null </dev/null | awk -v name="$name" '{ print name "\t" $0 }'
    done
}

# Writes a result for each message that has no line in the report: `passes CAUSE` or `without`, a tab, the message's place, a tab, the message.
compare() {
    : >"$scratch/steps"
    : >"$scratch/result"
    awk -f "$beside/lines.awk" "$scratch/report" "$scratch/messages" >"$scratch/left"
    [ -s "$scratch/left" ] || return
    od -An -v -tu1 "$1" | awk -f "$beside/text.awk" >"$scratch/text"
    # Steps are looked at for the causes in Subrs that no glyph calls, and for counter control.
    if awk -F '[ \t]' '$1 == "ghost" { ghost[$2] = 1 } $1 == "subr" && /\t/ && !($2 in ghost) || /partial/ { found = 1 } END { exit !found }' \
        "$scratch/text" "$scratch/left"; then
        trace_all "$1" >"$scratch/steps"
    fi
    awk -f "$beside/causes.awk" "$scratch/text" "$scratch/steps" "$scratch/left" >"$scratch/result"
}

# Compares a font's messages with its report, counts them, and prints those without a line.
try_font() {
    read_messages "$1"
    [ -s "$scratch/messages" ] || { pass; return; }
    timeout 60 "$program" --edition 3 "$1" >"$scratch/report" 2>/dev/null </dev/null
    if [ $? -gt 1 ]; then
        sed 's/.*/refused/' "$scratch/messages" >>"$scratch/results"
        pass
        return
    fi
    compare "$1"
    sed 's/.*/message/' "$scratch/messages" >>"$scratch/results"
    cut -f 1 "$scratch/result" >>"$scratch/results"
    if grep '^without' "$scratch/result" >"$scratch/without"; then
        fail "$1: $(wc -l <"$scratch/without") of $(wc -l <"$scratch/messages") messages have no line"
        sed 's/^without\t/    /; s/\t/: /' "$scratch/without"
    else
        pass
    fi
}

# The lines of a row's report, numbered, with a line for each step of `28..52`.
number_lines() {
    awk '
        $0 == "" || /^passes / { next }
        {
            at = $1 == "glyph" ? 4 : 3
            count = split($at, ends, "[.][.]")
            for (step = ends[1]; step <= ends[count]; step++) { $at = step; print ++number ": " $0 }
        }
    '
}

# Tries a row of tests/beside/made: NAME CHANGES MESSAGE WANTED.
try_made() {
    font=$scratch/made.pfa
    printf '%s\n' "$2" | sed 's/ ; /\n/g' | awk -f "$top/tests/eexec.awk" -f "$top/tests/make.awk" >"$font"
    printf '%s\n' "$4" | sed 's/ ; /\n/g' >"$scratch/row"
    number_lines <"$scratch/row" >"$scratch/wanted"
    timeout 60 "$program" --edition 3 "$font" >"$scratch/report" 2>&1 </dev/null
    if ! cmp -s "$scratch/wanted" "$scratch/report"; then
        fail "$1: another report (< wanted, > given)"
        diff "$scratch/wanted" "$scratch/report"
        return
    fi
    try_font "$font"
    if ! cut -f 2 "$scratch/messages" | grep -qF -e "$3"; then
        fail "$1: t1lint doesn't say '$3'"
        return
    fi
    why=$(sed -n 's/^passes //p' "$scratch/row")
    given=$(grep -F -e "$3" "$scratch/result" | cut -f 1 | sort -u)
    [ "$given" = "${why:+passes $why}" ] || fail "$1: the message $given, not by '$why'"
    : >"$scratch/report"
    compare "$font"
    [ -n "$why" ] || grep -F -e "$3" "$scratch/result" | grep -q '^without' || fail "$1: the message isn't missed beside an empty report"
}

if [ $# -gt 0 ]; then
    find -L "$1" -type f \( -iname '*.pfa' -o -iname '*.pfb' -o -iname '*.t1' \) | sort >"$scratch/fonts"
else
    grep -n '|' "$beside/made" | grep -v '^[0-9]*:#' >"$scratch/rows"
    while IFS= read -r row; do
        try_made "tests/beside/made, line ${row%%:*}" "$(printf '%s\n' "$row" | sed 's/^[0-9]*://; s/ | .*//')" \
            "$(printf '%s\n' "$row" | sed 's/^[^|]* | //; s/ | .*//')" "$(printf '%s\n' "$row" | sed 's/.* | //')"
    done <"$scratch/rows"
    find "$top/tests/program/fonts" "$top/tests/draw/fonts" -type f | sort >"$scratch/fonts"
fi
while IFS= read -r font; do
    try_font "$font"
done <"$scratch/fonts"

sed -n 's/^passes /let pass: /p; s/^refused$/in fonts that are refused/p' "$scratch/results" | sort | uniq -c
printf '%d messages, %d without a line\n' "$(grep -c '^message$' "$scratch/results")" "$(grep -c '^without$' "$scratch/results")"
printf '%d passed, %d failed\n' "$passed" "$failed"
[ "$failed" -eq 0 ]
