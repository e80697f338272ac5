#!/bin/sh
# Tries the known faults of --baseline, which t1check-all is quiet about, and how --update-baseline writes them.

# shellcheck source=tests/tools/common.sh
. "$(dirname "$0")/common.sh"

wanted <<'END'
--
t1check-all: known can't be read: no such file or folder
t1check-all: 't1check-all --help' says how it is used
END
try 'known faults that are missing' 3 "$all" --baseline known glyphs.pfb edge.pfb
wanted <<'END'
--
2 fonts: 0 clean, 2 with known faults alone, 0 with faults, 0 refused, 0 not checked
known faults: 6 rows
END
try 'known faults are written' 0 "$all" --baseline known --update-baseline glyphs.pfb edge.pfb
wanted <<'END'
# Known faults: count, rule, unit, font.
1 Z07 font BlueValues glyphs.pfb
1 Z01 font StdHW glyphs.pfb
1 P03 glyph A glyphs.pfb
1 P02 glyph A glyphs.pfb
1 GE01 glyph B glyphs.pfb
1 H02 glyph A edge.pfb
--
END
try 'the known faults' 0 cat known
cat >known <<'END'
# Known faults: count, rule, unit, font.
1 Z07 font BlueValues glyphs.pfb
2 P03 glyph A glyphs.pfb
1 GE01 glyph B glyphs.pfb
1 H02 glyph A edge.pfb
3 C05 glyph A elsewhere.pfb
END
wanted <<'END'
glyphs.pfb: 2: font StdHW 0 Z01 value of another kind
glyphs.pfb: 4: glyph A - 12 P02 path not closed
--
glyphs.pfb: known faults: P03 glyph A: 2 known, 1 found
END
try 'what goes beyond known faults' 1 "$all" -q --baseline known glyphs.pfb edge.pfb

# Fonts with known faults alone are a class of their own.
cp "$fonts/clean.pfb" clean.pfb
wanted <<'END'
glyphs.pfb: 2: font StdHW 0 Z01 value of another kind
glyphs.pfb: 4: glyph A - 12 P02 path not closed
--
glyphs.pfb: known faults: P03 glyph A: 2 known, 1 found
3 fonts: 1 clean, 1 with known faults alone, 1 with faults, 0 refused, 0 not checked
      1 P02 path not closed (should)
      1 Z01 value of another kind (must)
END
try "classes of fonts" 1 "$all" --baseline known glyphs.pfb edge.pfb clean.pfb
cp "$fonts/E03.bin" edge.pfb
wanted <<'END'
edge.pfb: refused: E03 segment cut short
--
END
try 'known faults of some rules and fonts' 2 "$all" -q --baseline=known --update-baseline --only P,Z01 glyphs.pfb edge.pfb
wanted <<'END'
# Known faults: count, rule, unit, font.
1 Z07 font BlueValues glyphs.pfb
1 Z01 font StdHW glyphs.pfb
1 P03 glyph A glyphs.pfb
1 P02 glyph A glyphs.pfb
1 GE01 glyph B glyphs.pfb
1 H02 glyph A edge.pfb
3 C05 glyph A elsewhere.pfb
--
END
try 'rows of other rules and fonts stand' 0 cat known
echo 'one H02 glyph A glyphs.pfb' >known
wanted <<'END'
--
t1check-all: known: line 1: no row of known faults: one H02 glyph A glyphs.pfb
END
try 'a row that is none' 3 "$all" -q --baseline known glyphs.pfb
cat >known <<'END'
1 H02 glyph A edge.pfb
3 C05 glyph A elsewhere.pfb
2 H02 glyph A edge.pfb
END
cp known twice
wanted <<'END'
--
t1check-all: known: line 3: two rows of known faults: 2 H02 glyph A edge.pfb
END
try 'a row that is there twice' 3 "$all" -q --baseline known glyphs.pfb
try 'a row that is there twice, and an update' 3 "$all" -q --baseline known --update-baseline glyphs.pfb
wanted <<'END'
--
END
try 'nothing is updated' 0 cmp known twice

# Counts are numbers, also where they have more digits.
echo 'A 9' | make_font 9.pfa
echo 'A 10' | make_font 10.pfa
echo '9 P03 glyph A 10.pfa' >known
wanted <<'END'
10.pfa: 1: glyph A - 4 P03 closepath without a path
10.pfa: 2: glyph A - 5 P03 closepath without a path
10.pfa: 3: glyph A - 6 P03 closepath without a path
10.pfa: 4: glyph A - 7 P03 closepath without a path
10.pfa: 5: glyph A - 8 P03 closepath without a path
10.pfa: 6: glyph A - 9 P03 closepath without a path
10.pfa: 7: glyph A - 10 P03 closepath without a path
10.pfa: 8: glyph A - 11 P03 closepath without a path
10.pfa: 9: glyph A - 12 P03 closepath without a path
10.pfa: 10: glyph A - 13 P03 closepath without a path
--
10.pfa: known faults: P03 glyph A: 9 known, 10 found
END
try 'ten faults where nine are known' 1 "$all" -q --baseline known 10.pfa
echo '10 P03 glyph A 9.pfa' >known
wanted <<'END'
--
9.pfa: known faults: P03 glyph A: 10 known, 9 found
END
try 'nine faults where ten are known' 0 "$all" -q --baseline known 9.pfa
echo '10 P03 glyph A 10.pfa' >known
wanted <<'END'
--
END
try 'ten faults where ten are known' 0 "$all" -q --baseline known 10.pfa

# Rows of a font are replaced by what is found in it, at the place of its first row of a rule that is reported; those of a new font come last,
# of a clean font none stays, and a comment goes. No number of 64 bits is as great as that of Z04.
printf 'A 2\nB 9\n' | make_font nine.pfa
echo 'A 1' | make_font new.pfa
cat >rows <<'END'
# A comment.
3 P03 glyph A nine.pfa
1 Z04 font BlueValues gone.pfb
10 P03 glyph B nine.pfa
1 H99 glyph A nine.pfa
1 H02 glyph A clean.pfb
99999999999999999999999 Z04 font BlueValues nine.pfa
END
cp rows known
wanted <<'END'
--
nine.pfa: known faults: P03 glyph A: 3 known, 2 found
nine.pfa: known faults: P03 glyph B: 10 known, 9 found
nine.pfa: known faults: H99 glyph A: 1 known, 0 found
clean.pfb: known faults: H02 glyph A: 1 known, 0 found
nine.pfa: known faults: Z04 font BlueValues: 99999999999999999999999 known, 0 found
END
try 'rows of which fewer are found' 0 "$all" -q --baseline known nine.pfa clean.pfb
wanted <<'END'
--
nine.pfa: known faults: Z04 font BlueValues: 99999999999999999999999 known, 0 found
END
try 'rows of which fewer are found, of some rules' 0 "$all" -q --baseline known --only Z nine.pfa clean.pfb
wanted <<'END'
--
END
try 'rows of all rules' 0 "$all" -q --baseline known --update-baseline nine.pfa new.pfa clean.pfb
wanted <<'END'
# Known faults: count, rule, unit, font.
2 P03 glyph A nine.pfa
9 P03 glyph B nine.pfa
1 Z04 font BlueValues gone.pfb
1 P03 glyph A new.pfa
--
END
try 'rows that stay, go and come' 0 cat known
cp rows known
wanted <<'END'
--
END
try 'rows of some rules' 0 "$all" -q --baseline known --update-baseline --except Z nine.pfa new.pfa clean.pfb
wanted <<'END'
# Known faults: count, rule, unit, font.
2 P03 glyph A nine.pfa
9 P03 glyph B nine.pfa
1 Z04 font BlueValues gone.pfb
99999999999999999999999 Z04 font BlueValues nine.pfa
1 P03 glyph A new.pfa
--
END
try 'rows that stay, go and come by rule' 0 cat known

# Names of fonts as they are in rows, a row of a waiver, and known faults in a file -, which isn't standard input.
cp "$fonts/H02.pfb" 'two words.pfb'
cp "$fonts/H02.pfb" 'back\slash.pfb'
cp "$fonts/H02.pfb" waived.pfb
echo 'A C05' >waived.pfb.waivers
wanted <<'END'
--
missing.pfb: t1check: read failed: no such file or folder
END
try 'known faults of odd names' 3 "$all" -q --baseline - --update-baseline 'two words.pfb' 'back\slash.pfb' waived.pfb missing.pfb
wanted <<'END'
# Known faults: count, rule, unit, font.
1 H02 glyph A two words.pfb
1 H02 glyph A back\slash.pfb
1 H02 glyph A waived.pfb
1 U01 waiver A C05 waived.pfb
--
END
try 'rows of odd names' 0 cat ./-
wanted <<'END'
--
END
try 'nothing beyond known faults of odd names' 0 "$all" -q --baseline - 'two words.pfb' 'back\slash.pfb' waived.pfb

# Rows of which nothing is reported, since nobody looked for their faults.
try 'rows of other rules' 0 "$all" -q --baseline - --only L 'two words.pfb'
cp "$fonts/E03.bin" cut.pfa
echo '2 H02 glyph A cut.pfa' >known
wanted <<'END'
cut.pfa: refused: E03 segment cut short
--
END
try 'rows of a font that is refused' 2 "$all" -q --baseline known cut.pfa
cp "$fonts/H02.pfb" edge.pfb
wanted <<'END'
--
t1check-all: none/known can't be written: no such file or folder
END
try "known faults that can't be written" 3 "$all" -q --baseline none/known --update-baseline edge.pfb

# New rows are written beside the old ones, and then take their place: who reads the old file still has all of it.
mkdir kept
echo '1 C05 glyph A elsewhere.pfb' >kept/known
ln kept/known old
wanted <<'END'
--
END
try 'known faults are replaced' 0 "$all" -q --baseline kept/known --update-baseline edge.pfb
wanted <<'END'
1 C05 glyph A elsewhere.pfb
--
END
try 'known faults as they were' 0 cat old
wanted <<'END'
# Known faults: count, rule, unit, font.
1 C05 glyph A elsewhere.pfb
1 H02 glyph A edge.pfb
--
END
try 'known faults as they are' 0 cat kept/known
wanted <<'END'
known
--
END
try 'nothing beside known faults' 0 ls kept

# A file beside it that is there already is another's.
echo another >kept/known.new.0
wanted <<'END'
--
END
try 'known faults are replaced beside another file' 0 "$all" -q --baseline kept/known --update-baseline --only C edge.pfb
wanted <<'END'
another
--
END
try 'the other file' 0 cat kept/known.new.0

# Nor is one that stopped runs left, however many did.
for number in $(seq 120); do : >"kept/known.new.$number"; done
wanted <<'END'
--
END
try 'known faults are replaced beside many files' 0 "$all" -q --baseline kept/known --update-baseline --only C edge.pfb
for number in $(seq 120); do rm "kept/known.new.$number" || fail "known.new.$number is gone"; done

# What a link leads to is replaced, in its own folder, with its mode. The link stays. The file needn't be there.
mkdir far
echo '1 C05 glyph A elsewhere.pfb' >far/known
chmod 640 far/known
ln -s known far/second
ln -s far/second first
ln -s far/none hanging
ln -s loop loop
wanted <<'END'
--
END
try 'known faults behind links' 0 "$all" -q --baseline first --update-baseline edge.pfb
try 'known faults behind a link to nothing' 0 "$all" -q --baseline hanging --update-baseline edge.pfb
wanted <<'END'
far/second
known
far/none
640
known
none
second
# Known faults: count, rule, unit, font.
1 C05 glyph A elsewhere.pfb
1 H02 glyph A edge.pfb
# Known faults: count, rule, unit, font.
1 H02 glyph A edge.pfb
--
END
# shellcheck disable=SC2016
try 'the links and their files' 0 sh -c 'readlink first far/second hanging
    stat -c %a far/known
    ls far
    cat far/known far/none'
wanted <<'END'
--
t1check-all: loop can't be written
END
try 'known faults behind a link to itself' 3 "$all" -q --baseline loop --update-baseline edge.pfb

# New rows are on the disk before they have the file's name, and the name is before the run ends. One that is stopped in between leaves the old file.
if command -v cc >/dev/null && cc -shared -fPIC -o "$scratch/stops.so" "$top/tests/tools/stops.c" 2>/dev/null; then
    mkdir stopped
    echo '1 C05 glyph A elsewhere.pfb' >stopped/known
    wanted <<'END'
137
1 C05 glyph A elsewhere.pfb
# Known faults: count, rule, unit, font.
1 C05 glyph A elsewhere.pfb
1 H02 glyph A edge.pfb
--
END
    # shellcheck disable=SC2016
    try 'a run that is stopped before a rename' 0 sh -c 'exec 2>/dev/null
        CALLS=$1/calls STOPS=yes LD_PRELOAD=$1/stops.so "$0" -q --baseline stopped/known --update-baseline edge.pfb
        echo $?
        cat stopped/known stopped/known.new.0' "$all" "$scratch"
    rm calls
    wanted <<'END'
fsync stopped/known.new.1
rename stopped/known.new.1 stopped/known
fsync stopped
# Known faults: count, rule, unit, font.
1 C05 glyph A elsewhere.pfb
1 H02 glyph A edge.pfb
--
END
    # shellcheck disable=SC2016
    try 'the next run' 0 sh -c 'CALLS=$1/calls LD_PRELOAD=$1/stops.so "$0" -q --baseline stopped/known --update-baseline edge.pfb || exit
        sed "s|$(pwd -P)/||" calls
        cat stopped/known' "$all" "$scratch"
else
    echo "skipped: a run that is stopped before a rename, since there is no C compiler (Debian: gcc)"
fi

# New rows that can't be written whole leave the old ones, and nothing beside them.
awk 'BEGIN { for (i = 1; i <= 200; i++) print "g" i, 1 }' | make_font rows.pfa
echo '1 C05 glyph A elsewhere.pfb' >kept/known
wanted <<'END'
--
t1check-all: kept/known can't be written
END
# shellcheck disable=SC2016
try "known faults that can't be written whole" 3 sh -c 'trap "" XFSZ
    ulimit -f 1
    "$0" -q --baseline kept/known --update-baseline rows.pfa' "$all"
wanted <<'END'
1 C05 glyph A elsewhere.pfb
--
END
try 'known faults that could not be replaced' 0 cat kept/known
wanted <<'END'
known
known.new.0
--
END
try 'nothing more beside known faults' 0 ls kept

finish
