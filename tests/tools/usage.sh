#!/bin/sh
# Tries what t1check-all answers where its options are wrong.

# shellcheck source=tests/tools/common.sh
. "$(dirname "$0")/common.sh"

# As try, of words that are wrong: MESSAGE WORD...
usage() {
    wanted <<END
--
t1check-all: $1
t1check-all: 't1check-all --help' says how it is used
END
    shift
    try "usage: $*" 3 "$all" "$@"
}
usage 'no font is named'
usage 'no font is named' -q
usage 'no font is named' --exclude 'a*'
usage '-j is gone; --shard I/N splits a list for several processes' -j0 glyphs.pfb
usage '-j is gone; --shard I/N splits a list for several processes' -q -j 2 --edition 5 glyphs.pfb
usage '--edition wants 1, 2, 3 or 4' --edition 5 glyphs.pfb
usage '--shard wants I/N, I from 1 to N' --shard 3/2 glyphs.pfb
usage '--shard wants I/N, I from 1 to N' --shard 2 glyphs.pfb
usage '--update-baseline wants --baseline' --update-baseline glyphs.pfb
usage '--update-baseline and --shard exclude one another' --update-baseline --baseline known --shard 1/2 glyphs.pfb
usage '--write-waivers excludes --baseline and --shard' --write-waivers --shard 1/2 glyphs.pfb
usage '--force wants --write-waivers' --force glyphs.pfb
usage '--format wants jsonl, sarif, github or junit' --format json glyphs.pfb
usage '--format wants jsonl, sarif, github or junit' --format= glyphs.pfb
usage '--docs wants a URL' --format sarif --docs= glyphs.pfb
usage '--docs wants --format' --docs https://example.org/RULES.md glyphs.pfb

# Words that are no options, and options without a value.
wanted <<'END'
--
error: unexpected argument '--color' found

  tip: a similar argument exists: '--colour'

Usage: t1check-all --colour... [PATH]...

For more information, try '--help'.
END
try 'usage: --color' 3 "$all" --color glyphs.pfb
wanted <<'END'
--
error: unexpected argument '-x' found

  tip: to pass '-x' as a value, use '-- -x'

Usage: t1check-all [OPTIONS] [PATH]...

For more information, try '--help'.
END
try 'usage: -qx' 3 "$all" -qx glyphs.pfb
for word in '--edition <N>' '--format <FORM>' '--files-from <FILE>' '--exclude <GLOB>'; do
    wanted <<END
--
error: a value is required for '$word' but none was supplied

For more information, try '--help'.
END
    try "usage: ${word% *}" 3 "$all" glyphs.pfb "${word% *}"
done
try 'usage: an option in place of a value' 3 "$all" glyphs.pfb --exclude -q

# Of an option that is given again the last value counts.
wanted <<'END'
edge.pfb: 1: glyph A - 9 H02 stems overlap
--
END
try 'an option that is given again' 1 "$all" -q --edition 4 --edition 1 edge.pfb

# Help lists the options, and is all that is written, whatever else is given.
limited "$all" --help >help
[ "$(sed -n 1p help)" = 'Checks many fonts: t1check-all [OPTION...] [--] FONT|FOLDER...' ] || fail "help begins: $(sed -n 1p help)"
{ cat help && echo '--'; } >wanted
try 'help' 0 "$all" -h
try 'help among other words' 0 "$all" glyphs.pfb --format sarif --help
if [ -c /dev/full ]; then
    limited "$all" --help >/dev/full 2>given
    status=$?
    if [ "$status" -eq 3 ]; then pass; else fail "help on a full device: status $status"; fi
    limited "$all" --version >/dev/full 2>given
    status=$?
    if [ "$status" -eq 3 ]; then pass; else fail "the version on a full device: status $status"; fi
fi
commit=$(git -C "$top" rev-parse --short HEAD 2>/dev/null)
wanted <<END
t1check-all 1.0.0${commit:+ of commit $commit}
--
END
try 'the version' 0 "$all" --version
try 'the version, quietly' 0 "$all" -q --version glyphs.pfb

# Standard input that is closed is an empty list.
wanted <<'END'
edge.pfb: 1: glyph A - 9 H02 stems overlap
--
END
# shellcheck disable=SC2016
try 'a closed input' 1 sh -c '"$0" -q edge.pfb <&-' "$all"
# shellcheck disable=SC2016
try 'a closed input that has a list' 1 sh -c '"$0" -q --files-from - edge.pfb <&-' "$all"

finish
