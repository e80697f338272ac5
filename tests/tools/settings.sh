#!/bin/sh
# Tries the settings file of t1check-all: where it is found, what its entries do and what replaces them, in one part and in several, and what is
# printed of a file that is wrong.

# shellcheck source=tests/tools/common.sh
. "$(dirname "$0")/common.sh"

mkdir -p project/fonts/old
cp edge.pfb project/fonts/new.pfb
cp edge.pfb project/fonts/old/first.pfb
cp glyphs.pfb project/glyphs.pfb
cd project || exit 1

# Globs are relative to the file's folder. A glob without a slash matches the last part of a name.
echo 'exclude = ["old/**", "gl*"]' >fonts/.t1check.toml
wanted <<'END'
fonts/new.pfb: 1: glyph A - 9 H02 stems overlap
--
END
try "globs" 1 "$all" -q fonts glyphs.pfb
try "globs of a folder above" 1 "$all" -q ./fonts/new.pfb fonts/old/
wanted <<'END'
fonts/old/first.pfb: 1: glyph A - 9 H02 stems overlap
--
END
try 'globs, where the file is the nearest one' 1 sh -c ': >fonts/old/.t1check.toml && "$0" -q fonts/old; status=$?; rm fonts/old/.t1check.toml; exit $status' "$all"
wanted <<'END'
fonts/new.pfb: 1: glyph A - 9 H02 stems overlap
fonts/old/first.pfb: 1: glyph A - 9 H02 stems overlap
--
END
try "no settings" 1 "$all" -q --no-settings fonts
try "another glob" 1 "$all" -q --exclude 'gl*' fonts
wanted <<'END'
first.pfb: 1: glyph A - 9 H02 stems overlap
--
END
try 'a file above the working folder' 1 sh -c 'cd fonts/old && "$0" -q .' "$all"
wanted <<'END'
--
t1check-all: there is no font to check
t1check-all: 't1check-all --help' says how it is used
END
try 'a file above an absolute path' 3 sh -c 'cd / && "$0" -q "$1"' "$all" "$scratch/project/fonts/old"
rm fonts/.t1check.toml

# Rules, levels and editions.
cat >.t1check.toml <<'END'
only = ["h", 'Z01']
fail-on = "must"
END
wanted <<'END'
fonts/new.pfb: 1: glyph A - 9 H02 stems overlap
glyphs.pfb: 2: font StdHW 0 Z01 value of another kind
--
END
try 'rules and levels' 1 "$all" -q fonts/new.pfb glyphs.pfb
try 'rules and levels, of a list of fonts' 1 sh -c 'printf "%s\n" fonts/new.pfb glyphs.pfb >list && "$0" -q --files-from list' "$all"
wanted <<'END'
fonts/new.pfb: 1: glyph A - 9 H02 stems overlap
--
END
try 'a level that does not make the status' 0 "$all" -q fonts/new.pfb
try 'another level' 1 "$all" -q --fail-on should fonts/new.pfb
wanted <<'END'
--
END
try 'other rules' 0 "$all" -q --only Z fonts/new.pfb
cp "$fonts/stem_of_one_edge.pfb" edge20.pfb
echo 'edition = 2' >.t1check.toml
try 'an edition' 0 "$all" -q edge20.pfb
wanted <<'END'
edge20.pfb: 1: glyph A - 9 H02 stems overlap
--
END
try 'another edition' 1 "$all" -q --edition 1 edge20.pfb
cp "$fonts/Z14.pfb" fraction.pfb
echo 'edition = 3' >.t1check.toml
wanted <<'END'
fraction.pfb: 1: font BlueValues 0 Z14 zone number is not whole
--
END
try 'the third edition' 1 "$all" -q fraction.pfb
echo 'only = "Z14"' >>.t1check.toml
try 'the third edition and one of its rules' 1 "$all" -q fraction.pfb
wanted <<'END'
--
END
try 'a rule of the third edition in the second' 0 "$all" -q --edition 2 fraction.pfb

# Known faults.
echo 'baseline = "known"' >fonts/.t1check.toml
wanted <<'END'
--
END
try 'known faults are written' 0 "$all" -q --update-baseline fonts
wanted <<'END'
# Known faults: count, rule, unit, font.
1 H02 glyph A fonts/new.pfb
1 H02 glyph A fonts/old/first.pfb
--
END
try 'the known faults' 0 cat fonts/known
wanted <<'END'
--
END
try 'nothing beyond known faults' 0 "$all" -q fonts
try 'waivers are written, whatever is known' 0 "$all" -q --write-waivers fonts
wanted <<'END'
A H02
--
END
try 'the waivers' 0 cat fonts/new.pfb.waivers
rm fonts/*.waivers fonts/old/*.waivers fonts/.t1check.toml
wanted <<'END'
--
t1check-all: --update-baseline wants --baseline
t1check-all: 't1check-all --help' says how it is used
END
try 'no known faults are named' 3 "$all" --update-baseline fonts

# Files that are wrong.
wrong() {
    printf '%s\n' "$2" >.t1check.toml
    wanted <<END
--
t1check-all: .t1check.toml$1
END
    try "settings: $2" 3 "$all" -q fonts
}
wrong ':1: not TOML' 'only H'
wrong ':3: not TOML' 'only = [
"H"
edition = 1'
wrong ': unknown key jobs' 'jobs = 2'
wrong ': edition wants 1, 2, 3 or 4' 'edition = 5'
wrong ': level wants levels, as ["must", "should"]' 'level = 1'
wrong ': --only wants codes of rules or their letters, as H02,Z' 'only = ["H02", "E03"]'
wrong ': --level wants must, should or tidy' 'level = "all"'
rm .t1check.toml
mkdir .t1check.toml
wanted <<'END'
--
t1check-all: .t1check.toml can't be read: it is no regular file
END
try "settings that can't be read" 3 "$all" -q fonts
wanted <<'END'
fonts/new.pfb: 1: glyph A - 9 H02 stems overlap
--
END
try "settings that can't be read and aren't asked for" 1 "$all" -q --no-settings fonts/new.pfb
rmdir .t1check.toml

finish
