#!/bin/sh
# Tries the pages of rules and refusals that t1explain prints, on a terminal too, and that t1check-all prints the same.

# shellcheck source=tests/tools/common.sh
. "$(dirname "$0")/common.sh"

limited "$explain" f03 | sed -n 1,2p >"$scratch/head"
limited "$explain" F03 >"$scratch/upper"
limited "$explain" f03 >"$scratch/lower"
wanted <<'END'
--
END
try 'codes in small letters' 0 cmp "$scratch/upper" "$scratch/lower"
wanted <<'END'
F03 FontType is not 1

--
END
try 'the heading of a page' 0 cat "$scratch/head"
wanted <<'END'
E06 encrypted part too short

Fewer than four encrypted bytes come after `eexec`.

The file was cut, or an editor changed the encrypted bytes.

Example: a file that ends after `currentfile eexec`.

Cure: take it from its source again.
--
t1explain: there is no rule and no refusal 'H'
t1explain: there is no rule and no refusal 'E16'
END
try 'a page, and codes that are none' 3 "$explain" H e06 E16
limited "$explain" >"$scratch/listed"
for code in F01 Z11 C09 GE02 K07 L01 U01 E01 E05 E15; do
    if grep -q "^$code " "$scratch/listed" && [ -n "$(limited "$explain" "$code" | sed -n 3p)" ]; then
        pass
    else
        fail "t1explain: no page of $code"
    fi
done
wanted <<'END'
127
--
END
try 'the list of rules and refusals' 0 sh -c "'$explain' | wc -l | tr -d ' '"
while read -r code text; do
    limited "$explain" "$code"
done <"$scratch/listed" >"$scratch/pages"
wanted <<'END'
--
END
try 'no links and no pictures in pages' 1 grep -e '](' -e '^!' "$scratch/pages"

# Those of t1check-all, each alone and all together, and its list.
while read -r code text; do
    limited "$checker" --explain "$code"
done <"$scratch/listed" >"$scratch/pages.all"
wanted <<'END'
--
END
try 'each page of t1check-all' 0 cmp "$scratch/pages" "$scratch/pages.all"
codes=$(sed 's/ .*//' <"$scratch/listed")
# shellcheck disable=SC2086
limited "$explain" $codes >"$scratch/together"
# shellcheck disable=SC2086
limited "$all" --explain $codes >"$scratch/together.all"
try 'all pages of t1check-all' 0 cmp "$scratch/together" "$scratch/together.all"
limited "$all" --explain >"$scratch/listed.all"
try 'the list of t1check-all' 0 cmp "$scratch/listed" "$scratch/listed.all"
wanted <<'END'
F02 bytes after the end segment

Level *tidy* (Technical Note 5040, section 3.3): nothing reads these bytes.

Two files were put together, or a transfer filled the file up. Example: one more byte `0A` after `80 03`.

    1: font file 0 F02 bytes after the end segment

Mended:

    truncate -s -1 font.pfb

Cure: look at what is after `80 03`, then cut the file after these two bytes.

E06 encrypted part too short

Fewer than four encrypted bytes come after `eexec`.

The file was cut, or an editor changed the encrypted bytes.

Example: a file that ends after `currentfile eexec`.

Cure: take it from its source again.
--
END
try 'two pages of t1check-all' 0 "$all" --explain F02 e06
echo 'edition = 4' >.t1check.toml
try 'pages whatever options and settings say' 0 "$all" -j 2 --edition 4 --columns 40 --colour f02 --explain -- E06
rm .t1check.toml
wanted <<'END'
--
t1check-all: there is no rule and no refusal 'H'
t1check-all: 't1check-all --help' says how it is used
END
try 'a code of t1check-all that is none' 3 "$all" --explain e06 H E16
limited "$all" --version >version
{ cat version && echo '--'; } >"$scratch/wanted"
try 'the version in place of pages' 0 "$all" --explain H --version
if [ -c /dev/full ]; then
    limited "$all" --explain e06 >/dev/full 2>given
    status=$?
    if [ "$status" -eq 3 ] && [ "$(cat given)" = 't1check-all: write failed' ]; then pass; else fail "a page on a full device: status $status"; fi
fi

# Pages of a book of our own, with a picture, links and an example.
mkdir -p own/bin own/docs
cp "$explain" own/bin/
cat >own/docs/RULES.md <<'END'
# Rules

### A01 one rule

![A01: a glyph](pictures/A01.svg)

A glyph has [one thing](#one) and more, by
[its lines](OTHER.md#two) of 30 columns and one of them.

    A: 0 500 hsbw endchar
    1: glyph A - 3 A01 a line that is longer than the terminal

- A point of a list that is longer than the terminal.

### B02 another rule

Cure: none.

## End

Nothing.
END
wanted <<'END'
A01 one rule

A glyph has one thing and more, by
its lines of 30 columns and one of them.

    A: 0 500 hsbw endchar
    1: glyph A - 3 A01 a line that is longer than the terminal

- A point of a list that is longer than the terminal.

B02 another rule

Cure: none.
--
t1explain: there is no rule and no refusal 'C03'
END
try 'two pages, after a code that is none' 3 own/bin/t1explain C03 a01 B02

# On a terminal paragraphs are broken anew; script makes one, and tput says how wide it is.
mkdir "$scratch/narrow"
printf '#!/bin/sh\necho 30\n' >"$scratch/narrow/tput"
chmod +x "$scratch/narrow/tput"
if [ "$(limited script -qec 'echo here' /dev/null </dev/null 2>/dev/null | tr -d '\r')" = here ]; then
    limited env PATH="$scratch/narrow:$PATH" PAGER=cat script -qec 'own/bin/t1explain a01' /dev/null </dev/null |
        tr -d '\r' >typed
    wanted <<'END'
A01 one rule

A glyph has one thing and
more, by its lines of 30
columns and one of them.

    A: 0 500 hsbw endchar
    1: glyph A - 3 A01 a line that is longer than the terminal

- A point of a list that is longer than the terminal.
--
END
    try 'a page on a terminal of 30 columns' 0 cat typed
else
    echo 'skipped: a page on a terminal, since script makes none here (Debian: bsdutils)'
fi

finish
