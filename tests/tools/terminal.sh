#!/bin/sh
# Tries the lines that t1check-all writes on a terminal, one for each font and rule with the reason of its first fault, at several widths and
# in colours, and that it writes each line of a report elsewhere.

# shellcheck source=tests/tools/common.sh
. "$(dirname "$0")/common.sh"

# A is 0 500 hsbw, a Subr with closepath, 50 hmoveto, 100 hlineto, endchar.
wanted <<'END'
glyphs.pfb: Z01 value of another kind × 1: StdHW
   it is the number 30; a list of numbers is needed
glyphs.pfb: GE01 no endchar × 1: B
glyphs.pfb: Z07 zone too high for BlueScale × 1: BlueValues
   zone 0 to 26, height 26 times BlueScale 0.039625 is 1.03025; less than 1 is needed; BlueScale 0.038461538 would do
glyphs.pfb: P02 path not closed × 1: A
   from 50 0 to 150 0
glyphs.pfb: P03 closepath without a path × 1: A
   nothing is drawn so far
--
END
try '200 columns' 1 "$all" -q --columns 200 glyphs.pfb

# A reason that is wider is wrapped between words.
wanted <<'END'
glyphs.pfb: Z07 zone too high for BlueScale × 1: BlueValues
   zone 0 to 26, height 26 times BlueScale 0.039625 is 1.03025; less than 1 is
   needed; BlueScale 0.038461538 would do
--
END
try '80 columns' 1 "$all" -q --columns 80 --only Z07 glyphs.pfb
wanted <<'END'
glyphs.pfb: Z07 zone too high for BlueScale × 1: … and 1 more
   zone 0 to 26, height 26 times
   BlueScale 0.039625 is 1.03025; less
   than 1 is needed; BlueScale
   0.038461538 would do
--
END
try 'reasons in 40 columns' 1 "$all" -q --columns 40 --only Z07 glyphs.pfb
wanted <<'END'
glyphs.pfb: Z01 value of another kind × 1: … and 1 more
glyphs.pfb: GE01 no endchar × 1: B
glyphs.pfb: Z07 zone too high for BlueScale × 1: … and 1 more
glyphs.pfb: P02 path not closed × 1: A
glyphs.pfb: P03 closepath without a path × 1: … and 1 more
--
END
try '40 columns' 1 "$all" -q --no-reasons --columns 200 --columns=40 glyphs.pfb
cp "$fonts/clean.pfb" clean.pfb
try '40 columns' 1 "$all" -q --reasons --columns 40 --no-reasons glyphs.pfb clean.pfb
wanted <<'END'
glyphs.pfb: P02 path not closed × 1: A
   from 50 0 to 150 0
--
END
try '40 columns and reasons' 1 "$all" -q --only P02 --reasons --columns 40 glyphs.pfb clean.pfb
limited "$all" -q glyphs.pfb >"$scratch/long"
limited "$all" -q --columns 40 --long glyphs.pfb >"$scratch/long.cut"
limited "$all" -q --columns 40 --format jsonl glyphs.pfb >"$scratch/objects.cut"
limited "$all" -q --format jsonl glyphs.pfb >"$scratch/objects"
wanted <<'END'
--
END
try 'each line, whatever the columns' 0 cmp "$scratch/long" "$scratch/long.cut"
try 'a form, whatever the columns' 0 cmp "$scratch/objects" "$scratch/objects.cut"

# Names of glyphs are shown while they fit. Bytes that can't be shown are written by their numbers, which are four characters wide; a name
# that is wider than the terminal isn't shown, and none after it.
for glyph in A B C D Eacute F G H; do echo "$glyph 2"; done | make_font f.pfa
for row in '40:… and 8 more' '60:A, B … and 6 more' '80:A, B, C, D, Eacute, F, G, H'; do
    wanted <<END
f.pfa: P03 closepath without a path × 16: ${row#*:}
--
END
    try "names in ${row%%:*} columns" 1 "$all" -q --no-reasons --only P03 --columns "${row%%:*}" f.pfa
done
wide=$(printf 'a\tb.pfa')
printf 'A 2\nxxxxxxxxxxxxxxxxxxxxxxxxxxxxxxxxxxxxxxxxxxxxxxxxxxxxxxxxxxxxxxxxxxxxxxxx 2\nB 2\n' | make_font "$wide"
wanted <<'END'
a\x09b.pfa: P03 closepath without a path × 6: A … and 2 more
--
END
try 'a name that is wider' 1 "$all" -q --no-reasons --only P03 --columns 62 "$wide"
printf '\0331 2\n\351 2\ncaf\303\251 2\na\\b 2\n\302\2331 2\n' | make_font f.pfa
wanted <<'END'
f.pfa: P03 closepath without a path × 10: \x1B1, \xE9 … and 3 more
--
END
try 'names of odd bytes' 1 "$all" -q --no-reasons --only P03 --columns 66 f.pfa
wanted <<'END'
f.pfa: P03 closepath without a path × 10: \x1B1, \xE9, café, a\\b, \xC2\x9B1
--
END
try 'all names of odd bytes' 1 "$all" -q --no-reasons --only P03 --columns 78 f.pfa

# The summary counts lines of reports, and a refusal is coloured as what must be. ESC is written as ^.
cp "$fonts/E03.bin" cut.pfa
wanted <<'END'
cut.pfa: ^[31mrefused: E03 segment cut short^[0m
glyphs.pfb: ^[31mGE01 no endchar^[0m × 1: B
glyphs.pfb: ^[33mP02 path not closed^[0m × 1: A
   from 50 0 to 150 0
glyphs.pfb: ^[36mP03 closepath without a path^[0m × 1: A
   nothing is drawn so far
--
END
try 'colours' 0 sh -c "'$all' -q --colour --columns 80 --only GE,P cut.pfa glyphs.pfb | tr '\033' '^'"
wanted <<'END'
glyphs.pfb: P03 closepath without a path × 1: A
   nothing is drawn so far
--
1 font: 0 clean, 1 with faults, 0 refused, 0 not checked
      1 P03 closepath without a path (tidy)
by edition 1 of the rules; --edition 4 has more
END
try 'the summary' 1 "$all" --columns 80 --only P03 glyphs.pfb

# Where an edition is named, in words or in settings, or each line is written, the summary doesn't say which one was used.
wanted <<'END'
--
1 font: 1 clean, 0 with faults, 0 refused, 0 not checked
END
try 'an edition that is named' 0 "$all" --columns 80 --edition 1 clean.pfb
try 'each line' 0 "$all" --columns 80 --long clean.pfb
mkdir named
cp clean.pfb named
echo 'edition = 2' >named/.t1check.toml
try 'an edition of settings' 0 sh -c "cd named && '$all' --columns 80 clean.pfb"
wanted <<'END'
--
1 font: 1 clean, 0 with faults, 0 refused, 0 not checked
by edition 1 of the rules; --edition 4 has more
END
try 'no edition named' 0 "$all" --columns 80 clean.pfb
wanted <<'END'
--
END
try 'no summary' 0 "$all" -q --columns 80 clean.pfb

# A terminal, which script makes; tput says how wide it is.
mkdir narrow
cat >narrow/tput <<'END'
#!/bin/sh
echo 40
END
chmod 755 narrow/tput
if [ "$(limited script -qec 'echo here' /dev/null </dev/null 2>/dev/null | tr -d '\r')" = here ]; then
    on_terminal() {
        limited env PATH="$scratch/narrow:$PATH" TERM=xterm "$1" script -qec "exec '$all' -q --only P,GE $2 glyphs.pfb" /dev/null </dev/null |
            tr -d '\r' | tr '\033' '^'
    }
    wanted <<'END'
glyphs.pfb: GE01 no endchar × 1: B
glyphs.pfb: P02 path not closed × 1: A
   from 50 0 to 150 0
glyphs.pfb: P03 closepath without a path × 1: … and 1 more
   nothing is drawn so far
--
END
    on_terminal NO_COLOR=1 '' >"$scratch/shown"
    try 'a terminal without colours' 0 cat "$scratch/shown"
    wanted <<'END'
glyphs.pfb: ^[31mGE01 no endchar^[0m × 1: B
glyphs.pfb: ^[33mP02 path not closed^[0m × 1: A
   from 50 0 to 150 0
glyphs.pfb: ^[36mP03 closepath without a path^[0m × 1: … and 1 more
   nothing is drawn so far
--
END
    on_terminal NO_COLOR= '' >"$scratch/shown"
    try 'a terminal with colours' 0 cat "$scratch/shown"
    limited "$all" -q --only P,GE glyphs.pfb >"$scratch/long"
    on_terminal NO_COLOR=1 --long >"$scratch/shown"
    wanted <<'END'
--
END
    try 'each line on a terminal' 0 cmp "$scratch/long" "$scratch/shown"
else
    echo "skipped: a terminal, since script isn't here (Debian: bsdutils)"
fi

finish
