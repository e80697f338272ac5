#!/bin/sh
# Tries the waivers beside a font, which t1check-all reads, leaves aside, writes and overwrites.

# shellcheck source=tests/tools/common.sh
. "$(dirname "$0")/common.sh"

wanted <<'END'
glyphs.pfb: 1: font BlueValues 1 Z07 zone too high for BlueScale
glyphs.pfb: 2: font StdHW 0 Z01 value of another kind
--
1 font: 0 clean, 1 with faults, 0 refused, 0 not checked
      1 Z01 value of another kind (must)
      1 Z07 zone too high for BlueScale (should)
t1check-all: lines of a font itself can not be waived
END
try 'waivers are written' 1 "$all" --write-waivers glyphs.pfb
wanted <<'END'
A P03
A P02
B GE01
--
END
try 'the waivers' 0 cat glyphs.pfb.waivers
wanted <<'END'
glyphs.pfb: 1: font BlueValues 1 Z07 zone too high for BlueScale
glyphs.pfb: 2: font StdHW 0 Z01 value of another kind
--
END
try 'waivers beside a font' 1 "$all" -q glyphs.pfb
wanted <<'END'
glyphs.pfb: 1: font BlueValues 1 Z07 zone too high for BlueScale
glyphs.pfb: 2: font StdHW 0 Z01 value of another kind
glyphs.pfb: 3: glyph A 5 6 P03 closepath without a path
glyphs.pfb: 4: glyph A - 12 P02 path not closed
glyphs.pfb: 5: glyph B - 4 GE01 no endchar
--
END
try 'waivers left aside' 1 "$all" -q --no-waivers glyphs.pfb
wanted <<'END'
glyphs.pfb: 1: font BlueValues 1 Z07 zone too high for BlueScale
glyphs.pfb: 2: font StdHW 0 Z01 value of another kind
--
t1check-all: lines of a font itself can not be waived
glyphs.pfb: waivers are there already; --force overwrites them
END
try 'waivers that are there' 3 "$all" -q --write-waivers glyphs.pfb
echo 'A H02' >glyphs.pfb.waivers
wanted <<'END'
--
END
try 'waivers are overwritten' 0 "$all" -q --write-waivers --force --only P,GE glyphs.pfb
wanted <<'END'
A P03
A P02
B GE01
--
END
try 'the overwritten waivers' 0 cat glyphs.pfb.waivers
wanted <<'END'
--
END
try 'waivers of some rules are written' 0 "$all" -q --write-waivers --force --only P glyphs.pfb
wanted <<'END'
A P03
A P02
--
END
try 'the waivers of some rules' 0 cat glyphs.pfb.waivers
echo 'A H02' >glyphs.pfb.waivers
wanted <<'END'
glyphs.pfb: 6: waiver A H02 U01 waiver not used
--
END
try 'a waiver that is not used' 1 "$all" -q --only U01 glyphs.pfb
echo 'no waiver' >glyphs.pfb.waivers
wanted <<'END'
glyphs.pfb: refused: E14 waivers malformed
--
END
try 'malformed waivers' 2 "$all" -q glyphs.pfb

# Rules after number 70 are waived in the third edition, and in no other.
cp "$fonts/H06.pfb" later.pfb
wanted <<'END'
--
END
try 'waivers of a later rule are written' 0 "$all" -q --edition 3 --write-waivers later.pfb
wanted <<'END'
A H06
--
END
try 'the waivers of a later rule' 0 cat later.pfb.waivers
wanted <<'END'
--
END
try 'waivers of a later rule' 0 "$all" -q --edition 3 later.pfb
wanted <<'END'
later.pfb: refused: E14 waivers malformed
--
END
try 'waivers of a later rule, in the second edition' 2 "$all" -q --edition 2 later.pfb

# Waivers past 1,048,576 bytes aren't read, so they aren't written. The first font has 8,192 lines of 128 bytes, the other one byte more.
awk 'BEGIN { for (i = 1; i <= 8192; i++) printf "%0123d 1\n", i }' | make_font most.pfa
awk 'BEGIN { for (i = 1; i <= 8191; i++) printf "%0123d 1\n", i; printf "%0124d 1\n", i }' | make_font past.pfa
wanted <<'END'
--
past.pfa: too many waivers
END
rm -f most.pfa.waivers
try "too many waivers" 3 "$all" -q --write-waivers most.pfa past.pfa
wanted <<'END'
 1048576 most.pfa.waivers
--
END
try 'the most waivers' 0 sh -c 'wc -c most.pfa.waivers | sed "s/^ */ /"; [ ! -e past.pfa.waivers ]'
wanted <<'END'
--
END
try 'the most waivers beside a font' 0 "$all" -q most.pfa
awk 'BEGIN { print "A H02"; for (i = 1; i <= 5000; i++) print "g" i " C05" }' >edge.pfb.waivers
awk 'BEGIN { for (i = 1; i <= 5000; i++) print "edge.pfb: " i ": waiver g" i " C05 U01 waiver not used"; print "--" }' >wanted
try 'five thousand waivers' 1 "$all" -q edge.pfb

finish
