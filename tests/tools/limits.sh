#!/bin/sh
# Tries t1check-all on the greatest files that it reads, and on what is one past them: fonts, waivers, glyphs of a font, bytes of a charstring.
# Other things have no limit, and are tried in great numbers: names, rows of known faults, bytes of a glyph's name.

# shellcheck source=tests/tools/common.sh
. "$(dirname "$0")/common.sh"

# A list of 100,000 names. One in a hundred leads to a font by a way of its own, as d//./edge.pfb; the others are missing.
mkdir d
cp edge.pfb d/
awk 'BEGIN {
    for (i = 1; i <= 100000; i++) {
        name = "none/" i ".pfb"
        if (i % 100 == 0) {
            name = "d/"
            for (bits = i / 100; bits > 0; bits = int(bits / 2)) name = name (bits % 2 ? "./" : "/")
            name = name "edge.pfb"
        }
        print name
    }
}' >names
{
    sed -n '/^d/s/$/: 1: glyph A - 9 H02 stems overlap/p' names
    echo '--'
    sed -n '/^n/s/$/: t1check: read failed: no such file or folder/p' names
    echo '100000 fonts: 0 clean, 1000 with faults, 0 refused, 99000 not checked'
    echo '   1000 H02 stems overlap (should)'
} >names.wanted
cp names.wanted wanted
try "100,000 names" 3 "$all" --files-from names

# A word of 100,000 bytes.
word=$(printf '%0100000d' 0)
wanted <<END
edge.pfb: 1: glyph A - 9 H02 stems overlap
--
$word: t1check: read failed
END
try 'a word of 100,000 bytes' 3 "$all" -q "$word" edge.pfb

# Fonts of 16,777,216 bytes and of one byte more: a comment fills them. Its line has two bytes besides.
echo 'A 1' | make_font small.pfa
size=$(wc -c <small.pfa)
filled() {
    sed 1q small.pfa
    printf '%%'
    dd if=/dev/zero bs="$(($1 - size - 2))" count=1 2>/dev/null | tr '\0' x
    echo
    sed 1d small.pfa
}
filled 16777216 >greatest.pfa
filled 16777217 >past.pfa
wanted <<'END'
 16777216 greatest.pfa
 16777217 past.pfa
--
END
# shellcheck disable=SC2016
try 'sizes of fonts' 0 sh -c 'wc -c greatest.pfa past.pfa | sed "s/^ */ /; \$d"'
wanted <<'END'
greatest.pfa: 1: glyph A - 4 P03 closepath without a path
past.pfa: refused: E05 file too large
--
END
try "the greatest font, and a greater one" 2 "$all" -q greatest.pfa past.pfa

# A charstring of 65,535 bytes, and one of a byte more. Besides faults, of a byte each, it has five bytes.
echo 'A 65530' | make_font steps.pfa
echo 'A 65531' | make_font past.pfa
awk 'BEGIN {
    for (i = 1; i <= 65530; i++) print "steps.pfa: " i ": glyph A - " i + 3 " P03 closepath without a path"
    print "past.pfa: refused: E11 count past its limit"
    print "--"
}' >wanted
try 'the longest charstring, and a longer one' 2 "$all" -q steps.pfa past.pfa

# A glyph's name of 65,535 bytes, in lines, in known faults and in waivers.
glyph=$(printf '%065535d' 0)
echo "$glyph 1" | make_font named.pfa
wanted <<END
named.pfa: 1: glyph $glyph - 4 P03 closepath without a path
--
END
try 'a long name of a glyph' 1 "$all" -q named.pfa
wanted <<END
{"code":"P03","file":"named.pfa","level":"tidy","name":"$glyph","number":1,"path":[],"step":4,"text":"closepath without a path","unit":"glyph"}
--
END
try 'a long name of a glyph, as jsonl' 1 "$all" -q --format jsonl named.pfa
wanted <<'END'
--
END
try 'a long name of a glyph becomes known' 0 "$all" -q --baseline known --update-baseline named.pfa edge.pfb
try 'a long name of a glyph is known' 0 "$all" -q --baseline known named.pfa edge.pfb
try 'a long name of a glyph is waived' 0 "$all" -q --write-waivers named.pfa
try 'a long name of a glyph beside its waiver' 0 "$all" -q named.pfa
wanted <<END
# Known faults: count, rule, unit, font.
1 P03 glyph $glyph named.pfa
1 H02 glyph A edge.pfb
$glyph P03
--
END
try 'known faults and waivers of a long name' 0 cat known named.pfa.waivers

# Fonts of 65,535 glyphs, .notdef among them, and of a glyph more. Each glyph has a fault, and a name of 11 bytes but for one. So the waivers of
# `most` are 65,533 lines of 16 bytes and one of 48, which are 1,048,576 bytes; those of `longer` have a byte more.
glyphs() {
    awk -v count="$1" 'BEGIN { for (i = 1; i <= count; i++) printf "%011d 1\n", i }'
    printf "%0${2}d 1\n" 0
}
glyphs 65533 43 >most.glyphs
glyphs 65533 44 >longer.glyphs
glyphs 34465 43 >rest.glyphs
{ cat most.glyphs && echo 'a 1'; } >past.glyphs
for font in most longer rest past; do
    make_font "$font.pfa" <"$font.glyphs" &
done
wait
awk '{
    print "most.pfa: " NR ": glyph " $1 " - 4 P03 closepath without a path"
}
END {
    print "past.pfa: refused: E11 count past its limit"
    print "--"
    print "2 fonts: 0 clean, 1 with faults, 1 refused, 0 not checked"
    print "  65534 P03 closepath without a path (tidy)"
}' most.glyphs >wanted
try 'the most glyphs, and a glyph more' 2 "$all" most.pfa past.pfa

# As many rows of known faults: 34,466 of one font and 65,534 of another.
wanted <<'END'
--
3 fonts: 0 clean, 3 with known faults alone, 0 with faults, 0 refused, 0 not checked
known faults: 100001 rows
END
try '100,000 rows' 0 "$all" --baseline rows --update-baseline edge.pfb rest.pfa most.pfa
{
    echo '# Known faults: count, rule, unit, font.'
    echo '1 H02 glyph A edge.pfb'
    sed 's/\(.*\) 1$/1 P03 glyph \1 rest.pfa/' rest.glyphs
    sed 's/\(.*\) 1$/1 P03 glyph \1 most.pfa/' most.glyphs
    echo '--'
} >wanted
try 'these rows' 0 cat rows
wanted <<'END'
--
END
try "100,000 rows are known" 0 "$all" -q --baseline rows edge.pfb rest.pfa most.pfa
sed 's/^1 P03/2 P03/' rows >twice
{
    echo '--'
    sed 's/\(.*\) 1$/rest.pfa: known faults: P03 glyph \1: 2 known, 1 found/' rest.glyphs
    sed 's/\(.*\) 1$/most.pfa: known faults: P03 glyph \1: 2 known, 1 found/' most.glyphs
} >wanted
try '100,000 rows that are no longer reached' 0 "$all" -q --baseline twice edge.pfb rest.pfa most.pfa

wanted <<'END'
--
longer.pfa: too many waivers
END
try 'the greatest waivers, and greater ones' 3 "$all" -q --write-waivers most.pfa longer.pfa
{ sed 's/ 1$/ P03/' most.glyphs && echo '--'; } >wanted
try 'the greatest waivers' 0 sh -c 'cat most.pfa.waivers; [ ! -e longer.pfa.waivers ]'
wanted <<'END'
 1048576
--
END
try 'their size' 0 sh -c 'wc -c <most.pfa.waivers | sed "s/^ */ /"'
wanted <<'END'
--
END
try 'a font beside the greatest waivers' 0 "$all" -q most.pfa
echo >>most.pfa.waivers
wanted <<'END'
most.pfa: refused: E15 waivers past their limit
--
END
try 'a font beside greater waivers' 2 "$all" -q most.pfa

finish
