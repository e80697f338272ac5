#!/bin/sh
# Tries that t1check-all prints the lines of the rules that are requested, in each edition, and loses none; that the shards of a list are
# together all of it; and that its status is the greatest of its fonts.

# shellcheck source=tests/tools/common.sh
. "$(dirname "$0")/common.sh"

# Rules.
cd "$odd" || exit 1
wanted <<'END'
-dash/-x.pfb: 1: glyph A - 9 H02 stems overlap
cut.pfa: refused: E03 segment cut short
q'"uote.PFB: 1: glyph A - 9 H02 stems overlap
sub folder/deep/two words.pfb: 1: font BlueValues 4 Z05 zones too near
--
END
try 'some rules' 2 "$all" -q --only=h02,Z .
try 'all but some rules' 2 "$all" -q . --except F --except K02
wanted <<'END'
--
t1check-all: --only wants codes of rules or their letters, as H02,Z
t1check-all: 't1check-all --help' says how it is used
END
for codes in E03 E H11 '' ','; do
    try "codes '$codes'" 3 "$all" --only "$codes" .
done

# Editions: the second takes a stem of width -20 for one of one edge, which overlaps nothing; the third has more rules.
cd "$scratch" || exit 1
cp "$top/tests/program/fonts/stem_of_one_edge.pfb" edge20.pfb
wanted <<'END'
edge20.pfb: 1: glyph A - 9 H02 stems overlap
--
END
try 'edition 1' 1 "$all" -q --edition 1 edge20.pfb
try 'no edition' 1 "$all" -q edge20.pfb
wanted <<'END'
--
END
try 'edition 2' 0 "$all" -q --edition=2 edge20.pfb
echo 'A C05' >edge20.pfb.waivers
wanted <<'END'
edge20.pfb: 1: waiver A C05 U01 waiver not used
--
END
try 'edition 2 with waivers' 1 "$all" -q --edition 2 edge20.pfb
rm edge20.pfb.waivers
cp "$fonts/Z14.pfb" fraction.pfb
wanted <<'END'
fraction.pfb: 1: font BlueValues 0 Z14 zone number is not whole
--
END
try 'edition 3' 1 "$all" -q --edition 3 fraction.pfb
try 'edition 3, and one of its rules' 1 "$all" -q --edition 3 --only z14,H07 fraction.pfb
try 'edition 3, and the level of its rule' 1 "$all" -q --edition 3 --level should fraction.pfb
wanted <<'END'
--
END
try 'edition 3 takes a stem as edition 2 does' 0 "$all" -q --edition 3 --only H edge20.pfb
try 'edition 3, and its rule left out' 0 "$all" -q --edition 3 --except Z14 fraction.pfb
try 'edition 3, and another level' 0 "$all" -q --edition 3 --level must,tidy fraction.pfb
try 'a rule of edition 3 in edition 2' 0 "$all" -q --edition 2 --only Z14 fraction.pfb
try 'a rule of edition 3 in edition 1' 0 "$all" -q --only Z14 --except F15,W03 fraction.pfb

# Levels: H02 is should. What is reported stays, and so do refusals, which are must.
wanted <<'END'
edge.pfb: 1: glyph A - 9 H02 stems overlap
--
END
try 'a level' 1 "$all" -q --level should edge.pfb
try 'two levels' 1 "$all" -q --level=Tidy,SHOULD edge.pfb
try 'a level, given again' 1 "$all" -q --level tidy --level should edge.pfb
try 'a level and a rule' 1 "$all" -q --level should --only H edge.pfb
try 'a level that makes the status' 1 "$all" -q --fail-on must,should edge.pfb
try 'a level that does not' 0 "$all" -q --fail-on must edge.pfb
wanted <<'END'
--
END
try 'another level' 0 "$all" -q --level must,tidy edge.pfb
try 'a level and another rule' 0 "$all" -q --level should --only GE02 edge.pfb
try 'a level, and its rule left out' 0 "$all" -q --level should --except H02 edge.pfb
cp "$fonts/E03.bin" cut.pfa
wanted <<'END'
cut.pfa: refused: E03 segment cut short
edge.pfb: 1: glyph A - 9 H02 stems overlap
--
END
try 'a refusal, whatever makes the status' 2 "$all" -q --fail-on tidy cut.pfa edge.pfb
for option in level fail-on; do
    for levels in '' , error must,H02; do
        wanted <<END
--
t1check-all: --$option wants must, should or tidy
t1check-all: 't1check-all --help' says how it is used
END
        try "--$option '$levels'" 3 "$all" "--$option=$levels" edge.pfb
    done
done

# Known faults of levels that are left out are neither judged nor dropped.
cat >known <<'END'
3 GE02 glyph B edge.pfb
1 H02 glyph A edge.pfb
END
wanted <<'END'
--
END
try 'known faults of a level' 0 "$all" -q --baseline known --level should edge.pfb
try 'an update of a level' 0 "$all" -q --baseline known --update-baseline --level should edge.pfb
wanted <<'END'
# Known faults: count, rule, unit, font.
3 GE02 glyph B edge.pfb
1 H02 glyph A edge.pfb
--
END
try 'what an update of a level keeps' 0 cat known

# Shards: what they write one after another is what one run writes, and the numbers of their summaries add up to those of its summary.
limited "$all" "$fonts" >whole 2>sums.0
: >joined
for part in 1 2 3 4 5; do
    limited "$all" --shard "$part/5" "$fonts" >>joined 2>"sums.$part"
done
cp "$top/docs/recipes/sums.awk" sums.awk
wanted <<'END'
--
END
try 'shards' 0 cmp whole joined
for sums in 'sums.0' 'sums.[1-5]'; do
    # shellcheck disable=SC2086
    limited awk -f sums.awk $sums | sort -rn >"added.${#sums}"
done
try 'summaries of shards' 0 cmp added.6 added.10
wanted <<'END'
212 fonts
--
END
try 'the fonts of all shards' 0 grep -x '[0-9]* fonts' added.10
wanted <<'END'
--
END
try 'an empty shard' 0 "$all" -q --shard 1/2 glyphs.pfb
wanted <<'END'
glyphs.pfb: 3: glyph A 5 6 P03 closepath without a path
--
END
try 'a shard' 1 "$all" -q --shard 2/2 glyphs.pfb --only P03

# The status is the greatest of all fonts, whichever comes last.
cp "$fonts/E03.bin" cut.pfa
wanted <<'END'
cut.pfa: refused: E03 segment cut short
edge.pfb: 1: glyph A - 9 H02 stems overlap
--
missing.pfb: t1check: read failed: no such file or folder
END
try 'a font that is missing, one that is refused, and one with a line' 3 "$all" -q missing.pfb cut.pfa edge.pfb

# A line of a glyph whose name is empty, and more than a thousand lines.
echo ' 1' | make_font nameless.pfa
wanted <<'END'
nameless.pfa: 1: glyph  - 4 P03 closepath without a path
--
END
try 'a rule of a glyph whose name is empty' 1 "$all" -q --only P03 nameless.pfa
echo 'A 1001' | make_font many.pfa
awk 'BEGIN { for (i = 1; i <= 1001; i++) print "many.pfa: " i ": glyph A - " i + 3 " P03 closepath without a path"; print "--" }' >wanted
try 'a thousand and one lines' 1 "$all" -q --only P03 many.pfa

finish
