#!/bin/sh
# Tries the progress that t1check-all shows on a terminal: how many fonts of how many are begun, on standard error, until anything else is written.

# shellcheck source=tests/tools/common.sh
. "$(dirname "$0")/common.sh"

if [ "$(script -qec 'echo shown' /dev/null </dev/null 2>/dev/null | tr -d '\r')" != shown ]; then
    echo "skipped: progress, since script isn't here (Debian: bsdutils)"
    finish
    exit
fi

mkdir forty
awk 'BEGIN { for (number = 101; number <= 140; number++) print number }' >numbers
while read -r number; do
    cp "$fonts/F01.pfb" "forty/$number.pfb"
done <numbers

# On standard error alone: each font is counted, and the line is gone before the summary.
limited script -qec "'$all' forty 2>&1 >/dev/null" /dev/null </dev/null >given
wanted <<'END'
40 fonts: 0 clean, 40 with faults, 0 refused, 0 not checked
     40 F01 no end segment (should)
--
END
# shellcheck disable=SC2016
try 'the summary behind progress' 0 sh -c 'tr -d "\r" <given | sed "s/^.*$(printf "\033")\[K//"'
awk 'BEGIN { for (number = 1; number <= 40; number++) print number " of 40"; print "--" }' >wanted
# shellcheck disable=SC2016
try 'each font is counted' 0 sh -c 'tr "\r" "\n" <given | sed -n "s/$(printf "\033")\[K.*//p" | grep .'

# On the same terminal as the lines: each line stands whole.
limited script -qec "'$all' --no-reasons --columns 200 forty" /dev/null </dev/null >given
{
    sed 's|.*|forty/&.pfb: F01 no end segment × 1: file|' numbers
    echo '40 fonts: 0 clean, 40 with faults, 0 refused, 0 not checked'
    echo '     40 F01 no end segment (should)'
    echo 'by edition 1 of the rules; --edition 4 has more'
    echo '--'
} >wanted
# shellcheck disable=SC2016
try 'lines beside progress' 0 sh -c 'NO_COLOR=1 tr -d "\r" <given | sed "s/^.*$(printf "\033")\[K//; s/$(printf "\033")\[[0-9]*m//g"'

# A document isn't at the end of a line, so none of it is cleared. There is none if nothing but lines is wanted, and none elsewhere.
limited script -qec "'$all' --format sarif forty 2>/dev/null" /dev/null </dev/null | tr -d '\r' >given
limited "$all" --format sarif forty >written 2>/dev/null
wanted <<'END'
--
END
try 'a document on a terminal' 0 cmp written given
limited script -qec "'$all' -q forty 2>&1 >/dev/null" /dev/null </dev/null >given
try 'no progress where it is not wanted' 0 cat given
wanted <<'END'
40 fonts: 0 clean, 40 with faults, 0 refused, 0 not checked
     40 F01 no end segment (should)
--
END
# shellcheck disable=SC2016
try 'no progress elsewhere' 1 sh -c '"$0" forty 2>&1 >/dev/null' "$all"

finish
