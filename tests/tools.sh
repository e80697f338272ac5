#!/bin/sh
# Tries the tools that are beside the program in bin/: runs each script of tests/tools, in the order of their names, or those alone that
# are named, as `tests/tools.sh names install`. A script there tries one subject: it compares whole answers, standard output, standard
# error and status, with what was written there by hand. Names what differs and what is skipped; the last line counts passed and failed.
set -u
LC_ALL=C
export LC_ALL

folder=$(CDPATH='' cd -P -- "$(dirname "$0")/tools" && pwd -P) || exit 1
scratch=$(mktemp -d) || exit 1
trap 'rm -rf "$scratch"' EXIT
trap 'exit 1' HUP INT TERM
passed=0
failed=0

subjects=''
for file in "$folder"/*.sh; do
    subject=${file##*/}
    [ "$subject" = common.sh ] || subjects="$subjects ${subject%.sh}"
done

fail() {
    failed=$((failed + 1))
    printf 'failed: %s\n' "$1"
}

# Runs a script, shows what it prints but for its counts, and adds these up. Where they don't go with its status, it was ended before.
run() {
    { "$folder/$1.sh"; echo $? >"$scratch/status"; } | tee "$scratch/printed" | sed '/^[0-9][0-9]* passed, [0-9][0-9]* failed$/d'
    status=$(cat "$scratch/status")
    counts=$(sed -n '$s/^\([0-9][0-9]*\) passed, \([0-9][0-9]*\) failed$/\1 \2/p' "$scratch/printed")
    case "$status $counts" in
        '0 '*' 0') ;;
        [13]' '*' '[1-9]*) echo "tests/tools/$1.sh: ${counts#* } failed" ;;
        *)
            fail "tests/tools/$1.sh ended with status $status, its counts are '$counts'"
            return
            ;;
    esac
    passed=$((passed + ${counts% *}))
    failed=$((failed + ${counts#* }))
}

# shellcheck disable=SC2086
[ $# -gt 0 ] || set -- $subjects
for subject; do
    case "$subjects " in
        *" $subject "*) run "$subject" ;;
        *)
            fail "there is no subject '$subject', but$subjects"
            continue
            ;;
    esac
    # No program could be built, so no other script can try anything.
    [ "$status" -ne 3 ] || break
done

printf '%d passed, %d failed\n' "$passed" "$failed"
[ "$failed" -eq 0 ]
