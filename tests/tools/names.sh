#!/bin/sh
# Tries which fonts t1check-all checks, and in which order: names that are odd, lists of names, globs, links, fonts that are missing or can't
# be read, folders that are empty or can't be searched.

# shellcheck source=tests/tools/common.sh
. "$(dirname "$0")/common.sh"

cd "$odd" || exit 1
wanted <<'END'
-dash/-x.pfb: 1: glyph A - 9 H02 stems overlap
a=b.t1: 1: glyph C - 9 K02 seac code not in StandardEncoding
back\slash.pfb: 1: font file 0 F01 no end segment
cut.pfa: refused: E03 segment cut short
q'"uote.PFB: 1: glyph A - 9 H02 stems overlap
sub folder/deep/two words.pfb: 1: font BlueValues 4 Z05 zones too near
--
6 fonts: 0 clean, 5 with faults, 1 refused, 0 not checked
      2 H02 stems overlap (should)
      1 F01 no end segment (should)
      1 K02 seac code not in StandardEncoding (must)
      1 Z05 zones too near (should)
END
try "a folder" 2 "$all" .
try 'a folder by its whole path and without it' 2 "$all" ./ . "./sub folder/deep/two words.pfb" ".//sub folder/"

wanted <<'END'
sub folder/deep/two words.pfb: 1: font BlueValues 4 Z05 zones too near
q'"uote.PFB: 1: glyph A - 9 H02 stems overlap
-dash/-x.pfb: 1: glyph A - 9 H02 stems overlap
a=b.t1: 1: glyph C - 9 K02 seac code not in StandardEncoding
--
END
try 'words in their order, each font once' 1 "$all" -q -- 'sub folder' "q'\"uote.PFB" -dash a=b.t1 ./a=b.t1 'sub folder/'

wanted <<'END'
not-a-font.txt: 1: font BlueValues 4 Z05 zones too near
--
missing.pfb: t1check: read failed: no such file or folder
2 fonts: 0 clean, 1 with faults, 0 refused, 1 not checked
      1 Z05 zones too near (should)
END
try 'a missing font, and a file that is named' 3 "$all" missing.pfb not-a-font.txt

wanted <<'END'
--
t1check-all: there is no font to check
t1check-all: 't1check-all --help' says how it is used
END
try 'a folder without fonts' 3 "$all" empty
try 'a list without names' 3 "$all" --files-from /dev/null
try 'fonts that are all excluded' 3 "$all" --exclude '*.pf*' --exclude 'a?b.t1' --exclude '*.PFB' .

# Lists of names, a line each: after the words that are names themselves, and in the order of their options. An empty line is no name, and
# the last line may have no end.
printf 'sub folder\n\n-dash/-x.pfb\n' >"$scratch/list"
printf '%s' "q'\"uote.PFB" >"$scratch/list2"
wanted <<'END'
a=b.t1: 1: glyph C - 9 K02 seac code not in StandardEncoding
sub folder/deep/two words.pfb: 1: font BlueValues 4 Z05 zones too near
-dash/-x.pfb: 1: glyph A - 9 H02 stems overlap
q'"uote.PFB: 1: glyph A - 9 H02 stems overlap
--
END
try "lists of names" 1 "$all" -q --files-from "$scratch/list" a=b.t1 --files-from="$scratch/list2"
# shellcheck disable=SC2016
try "a list on standard input" 1 sh -c '"$0" -q --files-from - a=b.t1 --files-from "$1/list2" <"$1/list"' "$all" "$scratch"
# shellcheck disable=SC2016
try "a list on standard input that is read twice" 1 sh -c '{ cat "$1/list"; echo "q'\''\"uote.PFB"; } |
    "$0" -q --files-from - a=b.t1 --files-from -' "$all" "$scratch"
wanted <<'END'
--
t1check-all: nowhere can't be read: no such file or folder
t1check-all: 't1check-all --help' says how it is used
END
try 'a list that is missing' 3 "$all" --files-from nowhere a=b.t1

# Globs: one without a slash matches the last part of a name too, one with a slash all of it.
wanted <<'END'
a=b.t1: 1: glyph C - 9 K02 seac code not in StandardEncoding
q'"uote.PFB: 1: glyph A - 9 H02 stems overlap
--
END
try 'excluded fonts' 1 "$all" -q --exclude='-x*' --exclude='sub folder/**' --exclude 'cut.pf[ab]' --exclude 'back?slash.pfb' .
try 'excluded fonts, by their whole names' 1 "$all" -q --exclude '*/-x.pfb' --exclude '*/*/*.pfb' --exclude '[!aq]*' .
wanted <<'END'
-dash/-x.pfb: 1: glyph A - 9 H02 stems overlap
a=b.t1: 1: glyph C - 9 K02 seac code not in StandardEncoding
--
END
try 'globs that match nothing' 1 "$all" -q --exclude 'dash/*' --exclude '?.pfb' --exclude 'a=b' --exclude '' -- -dash a=b.t1

wanted <<'END'
one.pfb: 1: font BlueValues 4 Z05 zones too near
--
two\nlines.pfb: t1check: its name has a line end
2 fonts: 0 clean, 1 with faults, 0 refused, 1 not checked
      1 Z05 zones too near (should)
END
try 'a name with a line end' 3 sh -c "cd '$lines' && '$all' ."
wanted <<'END'
edge.pfb: 1: glyph A - 9 H02 stems overlap
--
two\nlines.pfb: t1check: its name has a line end
END
cd "$scratch" || exit 1
try 'a word with a line end' 3 "$all" -q "$(printf 'two\nlines.pfb')" edge.pfb
try 'a word with a line end, and rules' 3 "$all" -q --only H02 "$(printf 'two\nlines.pfb')" edge.pfb glyphs.pfb
wanted <<'END'
--
two\nlines.pfb: t1check: its name has a line end
END
try 'a shard of a word with a line end' 3 "$all" -q --shard 1/2 "$(printf 'two\nlines.pfb')" edge.pfb
mkdir "$(printf 'a\nfolder')"
cp edge.pfb "$(printf 'a\nfolder')"
wanted <<'END'
--
a\nfolder/edge.pfb: t1check: its name has a line end
END
try 'a folder with a line end' 3 "$all" -q "$(printf 'a\nfolder')"
rm -r "$(printf 'a\nfolder')"

# An excluded name isn't skipped for its line end.
wanted <<'END'
one.pfb: 1: font BlueValues 4 Z05 zones too near
--
END
# shellcheck disable=SC2016
try 'a name with a line end that is excluded' 1 sh -c 'cd "$1" && "$0" -q --exclude "two*" .' "$all" "$lines"

# Names that aren't UTF-8: below a folder, which so isn't searched whole; as a word, and in a list.
wanted <<'END'
one.pfb: 1: font BlueValues 4 Z05 zones too near
--
.: t1check: search failed
END
# shellcheck disable=SC2016
try "a name that isn't UTF-8 below a folder" 3 sh -c 'cd "$1" && "$0" -q .' "$all" "$bytes"
wanted <<'END'
one.pfb: 1: font BlueValues 4 Z05 zones too near
../edge.pfb: 1: glyph A - 9 H02 stems overlap
--
.: t1check: search failed
END
# shellcheck disable=SC2016
try "a name that isn't UTF-8 below a folder" 3 sh -c 'cd "$1" && "$0" -q . ../edge.pfb' "$all" "$bytes"
wanted <<'END'
one.pfb: 1: font BlueValues 4 Z05 zones too near
--
t1check-all: a name that is not UTF-8 is passed over
END
# shellcheck disable=SC2016
try "a word that isn't UTF-8" 3 sh -c 'cd "$1" && "$0" -q "$(printf "b\377d.pfb")" one.pfb' "$all" "$bytes"
# shellcheck disable=SC2016
try "a name that isn't UTF-8 in a list" 3 sh -c 'cd "$1" && printf "one.pfb\nb\377d.pfb\n" | "$0" -q --files-from -' "$all" "$bytes"

wanted <<'END'
edge.pfb: 1: glyph A - 9 H02 stems overlap
--
t1check-all: a name that is not UTF-8 is passed over
t1check-all: a name that is not UTF-8 is passed over
two\nlines.pfb: t1check: its name has a line end
END
# shellcheck disable=SC2016
try "names that aren't UTF-8, and one with a line end" 3 sh -c 'printf "b\377d.pfb\n" | "$0" -q --files-from - "$(printf "b\377d.pfb")" "$1" edge.pfb' \
    "$all" "$(printf 'two\nlines.pfb')"
wanted <<'END'
--
t1check-all: --exclude wants a glob that is UTF-8
t1check-all: 't1check-all --help' says how it is used
END
# shellcheck disable=SC2016
try "a glob that isn't UTF-8" 3 sh -c '"$0" -q --exclude "$(printf "b\377d")" edge.pfb' "$all"

# Links: a folder that is named may be one. Below a folder a link to a font is a font, and one to a folder is skipped, whatever its name.
mkdir named links
cp edge.pfb named/real.pfb
ln -s named linked
ln -s ../named/real.pfb links/font.pfb
ln -s ../named links/folder.pfb
wanted <<'END'
linked/real.pfb: 1: glyph A - 9 H02 stems overlap
--
END
try 'a folder that is a link' 1 "$all" -q linked
wanted <<'END'
links/font.pfb: 1: glyph A - 9 H02 stems overlap
--
END
try 'a font that is a link, and a link to a folder with the name of a font' 1 "$all" -q links

# A pipe isn't read, and its font not checked, named or below a folder.
mkdir piped
mkfifo piped/pipe.pfb
cp edge.pfb piped/real.pfb
wanted <<'END'
piped/real.pfb: 1: glyph A - 9 H02 stems overlap
--
piped/pipe.pfb: t1check: read failed: it is no regular file
END
try 'a pipe below a folder' 3 "$all" -q piped
wanted <<'END'
--
piped/pipe.pfb: t1check: read failed: it is no regular file
END
try 'a pipe that is named' 3 "$all" -q piped/pipe.pfb

# The font on standard input is -, and the file of that name ./- , as it is too where a list names it.
mkdir input
cp edge.pfb input/-
wanted <<'END'
-: 1: font BlueValues 4 Z05 zones too near
glyphs.pfb: 1: font BlueValues 1 Z07 zone too high for BlueScale
--
2 fonts: 0 clean, 2 with faults, 0 refused, 0 not checked
      1 Z05 zones too near (should)
      1 Z07 zone too high for BlueScale (should)
END
try 'a font on standard input' 1 sh -c '"$0" --only Z05,Z07 - glyphs.pfb <"$1"' "$all" "$fonts/Z05.pfb"
wanted <<'END'
./-: 1: glyph A - 9 H02 stems overlap
--
END
try 'a file of the name -' 1 sh -c "cd input && '$all' -q ./-"
try 'a file of the name - in a list' 1 sh -c "cd input && echo - | '$all' -q --files-from -"
wanted <<'END'
-: 1: font BlueValues 4 Z05 zones too near
./-: 1: glyph A - 9 H02 stems overlap
--
END
try 'standard input, and a file of the name -' 1 sh -c 'cd input && "$0" -q - ./- <"$1"' "$all" "$fonts/Z05.pfb"
wanted <<'END'
-: 1: font BlueValues 4 Z05 zones too near
--
END
echo 'A H02' >input/-.waivers
try 'globs and waivers leave standard input alone' 1 sh -c 'cd input && "$0" -q --exclude "*" - <"$1"' "$all" "$fonts/Z05.pfb"
wanted <<'END'
-: 1: glyph A - 9 H02 stems overlap
--
t1check-all: lines of a font itself can not be waived
END
try 'waivers of standard input are not written' 1 sh -c 'cd input && "$0" -q --write-waivers - <"$1"' "$all" "$fonts/H02.pfb"
wanted <<'END'
-
-.waivers
--
END
try 'no other file' 0 ls input
wanted <<'END'
{"code":"H02","file":"-","level":"should","name":"A","number":1,"path":[],"step":9,"text":"stems overlap","unit":"glyph"}
--
END
try 'a form of standard input' 1 sh -c '"$0" -q --format jsonl - <"$1"' "$all" "$fonts/H02.pfb"
wanted <<'END'
-: refused: E01 not a PFA or PFB
--
END
try 'an empty standard input' 2 "$all" -q -
wanted <<'END'
--
t1check-all: - is named twice: standard input is read once
t1check-all: 't1check-all --help' says how it is used
END
try 'standard input twice' 3 "$all" - -
wanted <<'END'
--
t1check-all: - is a font or a list, not both: standard input is read once
t1check-all: 't1check-all --help' says how it is used
END
try 'standard input as a font and a list' 3 "$all" --files-from - -

# Blanks at the ends of names.
cp edge.pfb ' front.pfb'
cp edge.pfb 'back.pfb '
wanted <<'END'
 front.pfb: 1: glyph A - 9 H02 stems overlap
back.pfb : 1: glyph A - 9 H02 stems overlap
--
END
try 'blanks at the ends of names' 1 "$all" -q ' front.pfb' 'back.pfb '

# Waivers that lead to themselves can't be read. A font whose name leaves no room for that of its waivers has none.
cp edge.pfb loop.pfb
ln -s loop.pfb.waivers loop.pfb.waivers
wanted <<'END'
--
loop.pfb: t1check: read of waivers failed
END
try 'waivers that are a link to themselves' 3 "$all" -q loop.pfb
long=$(printf '%0250d' 0).pfb
cp edge.pfb "$long"
wanted <<END
$long: 1: glyph A - 9 H02 stems overlap
--
END
try 'a font with a long name' 1 "$all" -q "$long"

# As a user who may not read all files: root may.
as=''
if [ "$(id -u)" -ne 0 ]; then
    as='sh -c'
elif chmod 755 "$scratch" && su -s /bin/sh nobody -c "test -x '$checker' && test -x '$all'" 2>/dev/null; then
    as='su -s /bin/sh nobody -c'
else
    echo "skipped: unreadable fonts, waivers and folders, since nobody may not run $all"
fi
if [ -n "$as" ]; then
    cp "$fonts/Z05.pfb" closed.pfb
    chmod 000 closed.pfb
    wanted <<'END'
--
closed.pfb: t1check: read failed: permission is denied
END
    # shellcheck disable=SC2086
    try 'an unreadable font' 3 $as "cd '$scratch' && '$all' -q closed.pfb"
    chmod 644 closed.pfb
    echo 'A H02' >closed.pfb.waivers
    chmod 000 closed.pfb.waivers
    wanted <<'END'
--
closed.pfb: t1check: read of waivers failed: permission is denied
END
    # shellcheck disable=SC2086
    try 'unreadable waivers' 3 $as "cd '$scratch' && '$all' -q closed.pfb"
    mkdir shut shut/inner
    cp edge.pfb shut
    chmod 000 shut/inner
    wanted <<'END'
shut/edge.pfb: 1: glyph A - 9 H02 stems overlap
--
shut/inner: t1check: search failed
END
    # shellcheck disable=SC2086
    try "a folder that can't be searched" 3 $as "cd '$scratch' && '$all' -q shut"
    chmod 755 shut/inner
    mkdir locked
    cp edge.pfb locked
    echo '1 C05 glyph A elsewhere.pfb' >locked/known
    chmod 666 locked/known
    chmod 555 locked
    wanted <<'END'
--
t1check-all: known can't be written: permission is denied
END
    # shellcheck disable=SC2086
    try "known faults in a folder that can't be written" 3 $as "cd '$scratch/locked' &&
        '$all' -q --baseline known --update-baseline edge.pfb"
    wanted <<'END'
--
t1check-all: edge.pfb.waivers can't be written: permission is denied
END
    # shellcheck disable=SC2086
    try "waivers in a folder that can't be written" 3 $as "cd '$scratch/locked' && '$all' -q --write-waivers edge.pfb"
    chmod 755 locked
fi

finish
