#!/bin/sh
# Tries JUnit's form of t1check-all, --format junit, and lines of JSON that name clean fonts, --clean.

# shellcheck source=tests/tools/common.sh
. "$(dirname "$0")/common.sh"

has_xmllint=yes
if ! command -v xmllint >/dev/null; then
    has_xmllint=''
    echo "skipped: junit.sh: what needs xmllint, which isn't here (Debian: libxml2-utils)"
fi

# Has xmllint judge what was written last, by the schema: NAME.
judge() {
    [ -n "$has_xmllint" ] || return
    cp "$scratch/out" "$scratch/junit.xml"
    wanted <<END
--
$scratch/junit.xml validates
END
    try "$1, judged by xmllint" 0 xmllint --noout --schema "$top/tests/junit.xsd" "$scratch/junit.xml"
}

# The frame round cases, which are on standard input, and what standard error has: LINE...
cases() {
    {
        printf '<?xml version="1.0" encoding="UTF-8"?>\n<testsuites>\n<testsuite name="t1check-all">\n'
        cat
        printf '</testsuite>\n</testsuites>\n--\n'
        [ $# -eq 0 ] || printf '%s\n' "$@"
    } >"$scratch/wanted"
}

cd "$odd" || exit 1
cases 'missing.pfb: t1check: read failed: no such file or folder' <<'END'
<testcase classname="t1check-all" name="-dash/-x.pfb" file="-dash/-x.pfb"><failure message="1: glyph A - 9 H02 stems overlap">1: glyph A - 9 H02 stems overlap
</failure></testcase>
<testcase classname="t1check-all" name="a=b.t1" file="a=b.t1"><failure message="1: glyph C - 9 K02 seac code not in StandardEncoding">1: glyph C - 9 K02 seac code not in StandardEncoding
</failure></testcase>
<testcase classname="t1check-all" name="back\\slash.pfb" file="back\\slash.pfb"><failure message="1: font file 0 F01 no end segment">1: font file 0 F01 no end segment
</failure></testcase>
<testcase classname="t1check-all" name="cut.pfa" file="cut.pfa"><error message="refused: E03 segment cut short">refused: E03 segment cut short
</error></testcase>
<testcase classname="t1check-all" name="q'&quot;uote.PFB" file="q'&quot;uote.PFB"><failure message="1: glyph A - 9 H02 stems overlap">1: glyph A - 9 H02 stems overlap
</failure></testcase>
<testcase classname="t1check-all" name="sub folder/deep/two words.pfb" file="sub folder/deep/two words.pfb"><failure message="1: font BlueValues 4 Z05 zones too near">1: font BlueValues 4 Z05 zones too near
</failure></testcase>
<testcase classname="t1check-all" name="missing.pfb" file="missing.pfb"><error message="t1check: read failed: no such file or folder">t1check: read failed: no such file or folder
</error></testcase>
END
try 'a folder' 3 "$all" -q --format junit . missing.pfb
judge 'a folder'
cd "$scratch" || exit 1

# Of glyphs.pfb the second line is the first that fails, where must is what fails. The failure has all lines; what doesn't fail is output.
cases <<'END'
<testcase classname="t1check-all" name="glyphs.pfb" file="glyphs.pfb"><failure message="2: font StdHW 0 Z01 value of another kind">1: font BlueValues 1 Z07 zone too high for BlueScale
   zone 0 to 26, height 26 times BlueScale 0.039625 is 1.03025; less than 1 is needed; BlueScale 0.038461538 would do
2: font StdHW 0 Z01 value of another kind
   it is the number 30; a list of numbers is needed
3: glyph A 5 6 P03 closepath without a path
   nothing is drawn so far
4: glyph A - 12 P02 path not closed
   from 50 0 to 150 0
5: glyph B - 4 GE01 no endchar
</failure></testcase>
<testcase classname="t1check-all" name="edge.pfb" file="edge.pfb"><system-out>1: glyph A - 9 H02 stems overlap
   15 to 35 and 0 to 20, set at step 6, share 5
</system-out></testcase>
END
try 'levels that fail, and reasons' 1 "$all" -q --format junit --fail-on must --reasons glyphs.pfb edge.pfb
judge 'levels that fail, and reasons'

# A font without lines passes, and so does one with known faults alone. A part without a font is a suite too.
cases <<'END'
<testcase classname="t1check-all" name="glyphs.pfb" file="glyphs.pfb"></testcase>
END
try 'nothing' 0 "$all" -q --format junit --only L01 glyphs.pfb
judge 'nothing'
cases <<'END'
<testcase classname="t1check-all" name="glyphs.pfb" file="glyphs.pfb"></testcase>
END
try 'known faults are written' 0 "$all" -q --format junit --baseline now --update-baseline glyphs.pfb
cases <<'END'
<testcase classname="t1check-all" name="glyphs.pfb" file="glyphs.pfb"></testcase>
END
try 'known faults alone' 0 "$all" -q --format junit --baseline now glyphs.pfb
cases </dev/null
try 'an empty shard' 0 "$all" --format junit --shard 1/2 glyphs.pfb
judge 'an empty shard'

# Whatever names have, it is text: markup, the end of a section of characters, control bytes, what XML can't hold, and bytes that are no text.
hostile=$scratch/hostile
mkdir "$hostile"
cp "$fonts/Z05.pfb" "$hostile/$(printf ']]><b a="1">&\357\277\277\357\277\276\033.pfb')"
printf ' 1\na"\\&\303\251\033\177 1\n\303\251\377\357\277\276 1\n' | make_font "$hostile/names.pfa"
cases <<END
<testcase classname="t1check-all" name="]]&gt;&lt;b a=&quot;1&quot;&gt;&amp;\\xEF\\xBF\\xBF\\xEF\\xBF\\xBE\\x1B.pfb" file="]]&gt;&lt;b a=&quot;1&quot;&gt;&amp;\\xEF\\xBF\\xBF\\xEF\\xBF\\xBE\\x1B.pfb"><failure message="1: font BlueValues 4 Z05 zones too near">1: font BlueValues 4 Z05 zones too near
</failure></testcase>
<testcase classname="t1check-all" name="names.pfa" file="names.pfa"><failure message="1: glyph  - 4 P03 closepath without a path">1: glyph  - 4 P03 closepath without a path
2: glyph a&quot;\\\\&amp;$(printf '\303\251')\\x1B\\x7F - 4 P03 closepath without a path
3: glyph \\xC3\\xA9\\xFF\\xEF\\xBF\\xBE - 4 P03 closepath without a path
</failure></testcase>
END
try 'hostile names' 1 sh -c "cd '$hostile' && '$all' -q --format junit ."
judge 'hostile names'

# What has no name in lines, and what couldn't be listed, is an error too.
cases 't1check-all: a name that is not UTF-8 is passed over' 'two\nlines.pfb: t1check: its name has a line end' <<'END'
<testcase classname="t1check-all" name="(no name)"><error message="t1check: a name that is not UTF-8 is passed over">t1check: a name that is not UTF-8 is passed over
</error></testcase>
<testcase classname="t1check-all" name="one.pfb" file="one.pfb"><failure message="1: font BlueValues 4 Z05 zones too near">1: font BlueValues 4 Z05 zones too near
</failure></testcase>
<testcase classname="t1check-all" name="two\x0Alines.pfb" file="two\x0Alines.pfb"><error message="t1check: its name has a line end">t1check: its name has a line end
</error></testcase>
END
# shellcheck disable=SC2016
try "a word that isn't UTF-8, and a name with a line end" 3 sh -c 'cd "$1" && "$0" -q --format junit "$(printf "b\377d.pfb")" .' "$all" "$lines"
judge "a word that isn't UTF-8, and a name with a line end"
cases '.: t1check: search failed' <<'END'
<testcase classname="t1check-all" name="." file="."><error message="t1check: search failed">t1check: search failed
</error></testcase>
<testcase classname="t1check-all" name="one.pfb" file="one.pfb"><failure message="1: font BlueValues 4 Z05 zones too near">1: font BlueValues 4 Z05 zones too near
</failure></testcase>
END
try "a name below a folder that isn't UTF-8" 3 sh -c "cd '$bytes' && '$all' -q --format junit ."

# ---- clean fonts as lines of JSON

cp "$fonts/E03.bin" cut.pfa
echo 'A 0' | make_font clean.pfa
limited "$all" -q --baseline edge --update-baseline edge.pfb
wanted <<'END'
{"file":"clean.pfa","text":"clean","unit":"clean"}
{"code":"E03","file":"cut.pfa","level":"must","text":"segment cut short","unit":"refused"}
{"file":"edge.pfb","text":"known faults alone","unit":"known"}
{"code":"Z05","file":"one.pfb","index":4,"key":"BlueValues","level":"should","number":1,"text":"zones too near","unit":"font"}
--
END
cp "$lines/one.pfb" .
try 'clean fonts as jsonl' 2 "$all" -q --clean --format jsonl --baseline edge clean.pfa cut.pfa edge.pfb one.pfb
wanted <<'END'
::warning file=edge.pfb,line=1,title=H02 stems overlap::H02 stems overlap × 1: A
--
END
try 'clean fonts as commands' 1 "$all" -q --clean --format github clean.pfa edge.pfb
wanted <<'END'
edge.pfb: 1: glyph A - 9 H02 stems overlap
--
END
try 'clean fonts as lines' 1 "$all" -q --clean clean.pfa edge.pfb

finish
