#!/bin/sh
# Tries the manual pages: that man and mandoc have nothing to say of them, that they have the options of --help, and all rules.

# shellcheck source=tests/tools/common.sh
. "$(dirname "$0")/common.sh"

install_all

printf '.TH A 1 2026-01-01\n.SH NAME\na \\- b\n' >"$scratch/a.1"
readers=''
limited man --warnings -E UTF-8 -l -Tutf8 -Z "$scratch/a.1" >/dev/null 2>&1 && readers='man --warnings -E UTF-8 -l -Tutf8 -Z' ||
    echo "skipped: manual pages read by man, which isn't here (Debian: man-db)"
pages="man1/t1check.1 man1/t1check-all.1 man1/t1draw.1 man1/t1explain.1 man7/t1check-rules.7"
wanted <<'END'
--
END
for page in $pages; do
    # shellcheck disable=SC2086
    [ -z "$readers" ] || try "$page by man" 0 sh -c "$readers \"$prefix/share/man/$page\" >/dev/null"
    ! command -v mandoc >/dev/null || try "$page by mandoc" 0 mandoc -T lint "$prefix/share/man/$page"
done
command -v mandoc >/dev/null || echo "skipped: manual pages read by mandoc, which isn't here (Debian: mandoc)"
for tool in t1check t1check-all t1draw; do
    options "$tool" >"$scratch/options"
    sed -n '/^.SH OPTIONS/,/^.SH EXIT/p' "$prefix/share/man/man1/$tool.1" | grep '^\.B' | tr -d '\\",' | tr ' ' '\n' | grep '^-' |
        grep -vx -e -h | sort >"$scratch/paged"
    try "options in the manual page of $tool" 0 diff "$scratch/options" "$scratch/paged"
done
limited "$explain" | sed 's/ ([a-z]*)$//' >"$scratch/listed"
sed -n 's/^\.SS \([A-Z]*[0-9][0-9] .*\)/\1/p' "$prefix/share/man/man7/t1check-rules.7" >"$scratch/paged"
try 'rules in the manual page' 0 diff "$scratch/listed" "$scratch/paged"

finish
