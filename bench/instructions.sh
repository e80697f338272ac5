#!/bin/sh
# Counts the instructions of t1check's reports on five real fonts, and fails where a count has grown by more than a tenth over the one that
# bench/instructions/kept.txt keeps: bench/instructions.sh
# Counts are callgrind's, which are the same at each run, so this shows a cost that no test of answers shows. The program has to be built.
# What isn't on this machine is skipped with a word: valgrind, and a font that isn't where Debian's package puts it or has another sum.
#
#   --all    also a trace and a report in resumed walks, one a fault, on lmr10; proves and builds the program of the walks in a scratch folder
set -u
LC_ALL=C
export LC_ALL

top=$(CDPATH='' cd -P -- "$(dirname "$0")/.." && pwd -P) || exit 1
kept=$top/bench/instructions/kept.txt
program=$top/crates/t1check/out/t1check
passed=0
failed=0

case $#,${1-} in
    0,) all= ;;
    1,--all) all=yes ;;
    *)
        echo 'usage: bench/instructions.sh [--all]' >&2
        exit 2
        ;;
esac

finish() {
    printf '%d passed, %d failed\n' "$passed" "$failed"
    [ "$failed" -eq 0 ]
    exit
}

fail() {
    failed=$((failed + 1))
    printf 'failed: %s\n' "$1"
}

if ! command -v valgrind >/dev/null; then
    echo "skipped: counts of instructions, since valgrind isn't here (Debian: valgrind)"
    finish
fi
if ! "$top/bin/t1check" --build; then
    fail 'bin/t1check --build'
    finish
fi
work=$(mktemp -d) || exit 1
trap 'rm -rf "$work"' EXIT
trap 'exit 1' HUP INT TERM

# Compares the count of a command that reads a font with the one that is kept: WHAT KEPT FONT COMMAND...
count() {
    what=$1 before=$2 font=$3
    shift 3
    timeout 300 valgrind --tool=callgrind --callgrind-out-file=/dev/null "$@" >/dev/null 2>"$work/log" <"$font"
    status=$?
    now=$(sed -n 's/.*Collected : *//p' "$work/log")
    if [ "$status" -gt 1 ] || [ -z "$now" ]; then
        cat "$work/log"
        fail "$what: status $status"
        return
    fi
    echo "$what: $now instructions, $before kept"
    if [ "$now" -gt $((before + before / 10)) ]; then
        fail "$what: grown by more than a tenth"
    else
        passed=$((passed + 1))
    fi
}

while read -r what before package sum font; do
    case $what in
        '#'*) continue ;;
        report) ;;
        *) [ -n "$all" ] || continue ;;
    esac
    if [ ! -r "$font" ] || [ "$(sha256sum <"$font")" != "$sum  -" ]; then
        echo "skipped: $what on $font, which isn't here as it is in its package (Debian: $package)"
        continue
    fi
    name="$what on ${font##*/}"
    case $what in
        report) count "$name" "$before" "$font" "$program" ;;
        trace) count "$name" "$before" "$font" "$program" --trace A ;;
        resumed)
            . "$top/bench/crates.sh"
            copy_crates "$top" "$work"
            mkdir -p "$work/crates/resuming/src"
            cp "$top/bench/instructions/main.txt" "$work/crates/resuming/src/main.rt"
            echo 'resuming: t1_font t1_char t1_rules t1_report' >>"$work/crates.txt"
            if (cd "$work/crates/resuming" && rt run) >"$work/log" 2>&1 <"$font"; then
                count "$name" "$before" "$font" "$work/crates/resuming/out/resuming"
            else
                cat "$work/log"
                fail "$name: its program can't be built"
            fi
            ;;
    esac
done <"$kept"
finish
