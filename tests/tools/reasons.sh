#!/bin/sh
# Tries the reasons that t1check-all reports with its lines: --reasons and --no-reasons, in each form, in parts, with known faults and waivers.
# On a terminal tests/tools/terminal.sh tries them.

# shellcheck source=tests/tools/common.sh
. "$(dirname "$0")/common.sh"

# A is 0 500 hsbw, a Subr with closepath, 50 hmoveto, 100 hlineto, endchar; B has no endchar, of which there is no more to say.
wanted <<'END'
glyphs.pfb: 1: font BlueValues 1 Z07 zone too high for BlueScale
   zone 0 to 26, height 26 times BlueScale 0.039625 is 1.03025; less than 1 is needed; BlueScale 0.038461538 would do
glyphs.pfb: 2: font StdHW 0 Z01 value of another kind
   it is the number 30; a list of numbers is needed
glyphs.pfb: 3: glyph A 5 6 P03 closepath without a path
   nothing is drawn so far
glyphs.pfb: 4: glyph A - 12 P02 path not closed
   from 50 0 to 150 0
glyphs.pfb: 5: glyph B - 4 GE01 no endchar
--
END
try "reasons" 1 "$all" -q --reasons glyphs.pfb
limited "$all" -q glyphs.pfb >"$scratch/plain"
limited "$all" -q --reasons --no-reasons glyphs.pfb >"$scratch/without"
limited "$all" -q --no-reasons glyphs.pfb >"$scratch/left"
limited "$all" -q --reasons glyphs.pfb | grep -v '^   ' >"$scratch/alone"
wanted <<'END'
--
END
for other in without left alone; do
    try "lines $other" 0 cmp "$scratch/plain" "$scratch/$other"
done

cp edge.pfb second.pfb
wanted <<'END'
edge.pfb: 1: glyph A - 9 H02 stems overlap
   15 to 35 and 0 to 20, set at step 6, share 5
second.pfb: 1: glyph A - 9 H02 stems overlap
   15 to 35 and 0 to 20, set at step 6, share 5
--
END
try 'reasons of two fonts' 1 "$all" -q --reasons edge.pfb second.pfb

# Reasons of rules that edition 3 adds, and their numbers. StdVW is 20, and StemSnapV is empty.
cp "$fonts/F17.pfb" "$fonts/F21.pfb" "$fonts/Z16.pfb" "$fonts/H07.pfb" .
wanted <<'END'
F17.pfb: 1: font FontBBox 0 F17 FontBBox has its corners exchanged
   10 is above 5
F21.pfb: 1: font Subrs 5 F21 Subr has no return
   it ends with endchar
Z16.pfb: 1: font StemSnapV 0 Z16 no stem snap beside a standard width
   the standard width is 20; [20] would do
H07.pfb: 1: glyph A - 24 H07 another stem3
   60 to 80 in place of 50 to 70, set at step 10
--
END
try 'reasons of edition 3' 1 "$all" -q --edition 3 --reasons F17.pfb F21.pfb Z16.pfb H07.pfb
wanted <<'END'
{"code":"F17","file":"F17.pfb","index":0,"key":"FontBBox","level":"should","number":1,"reason":{"first":"10","last":"5","text":"10 is above 5"},"text":"FontBBox has its corners exchanged","unit":"font"}
{"code":"F21","file":"F21.pfb","index":5,"key":"Subrs","level":"should","number":1,"reason":{"text":"it ends with endchar","token":"endchar"},"text":"Subr has no return","unit":"font"}
{"code":"Z16","file":"Z16.pfb","index":0,"key":"StemSnapV","level":"tidy","number":1,"reason":{"number":"20","text":"the standard width is 20; [20] would do"},"text":"no stem snap beside a standard width","unit":"font"}
--
END
try 'reasons of edition 3 as jsonl' 1 "$all" -q --edition 3 --reasons --format jsonl F17.pfb F21.pfb Z16.pfb

# Numbers beside the text.
wanted <<'END'
{"code":"P02","file":"glyphs.pfb","level":"should","name":"A","number":4,"path":[],"reason":{"pen":{"x":"150","y":"0"},"start":{"x":"50","y":"0"},"text":"from 50 0 to 150 0"},"step":12,"text":"path not closed","unit":"glyph"}
{"code":"P03","file":"glyphs.pfb","level":"tidy","name":"A","number":3,"path":[5],"reason":{"text":"nothing is drawn so far"},"step":6,"text":"closepath without a path","unit":"glyph"}
{"code":"GE01","file":"glyphs.pfb","level":"must","name":"B","number":5,"path":[],"step":4,"text":"no endchar","unit":"glyph"}
--
END
try 'reasons as jsonl' 0 sh -c "for code in P02 P03 GE01; do '$all' -q --reasons --format jsonl --only \$code glyphs.pfb; done; :"
wanted <<'END'
::warning file=glyphs.pfb,line=1,title=P02 path not closed::P02 path not closed × 1: A%0Afrom 50 0 to 150 0
--
END
try 'reasons as github' 1 "$all" -q --reasons --format github --only P02 glyphs.pfb
wanted <<'END'
::warning file=glyphs.pfb,line=1,title=P02 path not closed::P02 path not closed × 1: A%0Afrom 50 0 to 150 0
::notice file=glyphs.pfb,line=1,title=P03 closepath without a path::P03 closepath without a path × 1: A%0Anothing is drawn so far
::warning file=edge.pfb,line=1,title=H02 stems overlap::H02 stems overlap × 1: A%0A15 to 35 and 0 to 20, set at step 6, share 5
--
END
try 'reasons of two fonts as github' 1 "$all" -q --reasons --format github --only P,H glyphs.pfb edge.pfb
limited "$all" -q --format sarif glyphs.pfb >"$scratch/sarif"
limited "$all" -q --reasons --format sarif glyphs.pfb >"$scratch/told"
wanted <<'END'
"message":{"text":"font BlueValues 1 Z07 zone too high for BlueScale: zone 0 to 26, height 26 times BlueScale 0.039625 is 1.03025; less than 1 is needed; BlueScale 0.038461538 would do"}
"message":{"text":"font StdHW 0 Z01 value of another kind: it is the number 30; a list of numbers is needed"}
"message":{"text":"glyph A 5 6 P03 closepath without a path: nothing is drawn so far"}
"message":{"text":"glyph A - 12 P02 path not closed: from 50 0 to 150 0"}
"message":{"text":"glyph B - 4 GE01 no endchar"}
--
END
try 'reasons in a document' 0 sh -c "grep -o '\"message\":{\"text\":\"[fg][^}]*}' '$scratch/told'"
grep -o '"partialFingerprints":{[^}]*}' "$scratch/sarif" >"$scratch/prints"
grep -o '"partialFingerprints":{[^}]*}' "$scratch/told" >"$scratch/told.prints"
wanted <<'END'
--
END
try 'the same fingerprints' 0 cmp "$scratch/prints" "$scratch/told.prints"

# What is beyond known faults, and a waiver that isn't used.
printf '1 P03 glyph A glyphs.pfb\n' >known.txt
wanted <<'END'
glyphs.pfb: 4: glyph A - 12 P02 path not closed
   from 50 0 to 150 0
--
END
try 'a reason beyond known faults' 1 "$all" -q --reasons --only P --baseline known.txt glyphs.pfb
printf 'A P02\nA H02\nC P02\n' >glyphs.pfb.waivers
wanted <<'END'
glyphs.pfb: 5: waiver A H02 U01 waiver not used
   no step of the glyph breaks this rule
glyphs.pfb: 6: waiver C P02 U01 waiver not used
   no glyph has this name
--
END
try 'reasons of waivers' 1 "$all" -q --reasons --only U glyphs.pfb
rm glyphs.pfb.waivers

finish
