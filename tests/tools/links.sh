#!/bin/sh
# Tries the tools where a folder on the way to them is a link: in the repository, where they are installed, and where they are installed
# into a folder whose bin is a link.

# shellcheck source=tests/tools/common.sh
. "$(dirname "$0")/common.sh"

install_all

mkdir linked another another/programs
ln -s "$top/bin" linked/repository
ln -s "$prefix/bin" linked/installed
mkdir linked/below
ln -s ../../another/programs linked/below/bin
limited "$top/bin/install" --prefix "$scratch/linked/below" >/dev/null
for place in repository installed below/bin; do
    wanted <<'END'
edge.pfb: 1: glyph A - 9 H02 stems overlap
--
END
    try "t1check-all, $place" 1 "linked/$place/t1check-all" -q edge.pfb
    ln -sf "$place/t1check-all" linked/check
    try "a link to t1check-all, $place" 1 linked/check -q edge.pfb
    wanted <<'END'
1: glyph A - 9 H02 stems overlap
--
END
    try "t1check, $place" 1 "linked/$place/t1check" edge.pfb
    { cat "$top/tests/draw/square.svg" && echo --; } >wanted
    try "t1draw, $place" 0 "linked/$place/t1draw" A "$top/tests/draw/fonts/square.pfb"
    wanted <<'END'
E06 encrypted part too short

Fewer than four encrypted bytes come after `eexec`.

The file was cut, or an editor changed the encrypted bytes.

Example: a file that ends after `currentfile eexec`.

Cure: take it from its source again.
--
END
    try "t1explain, $place" 0 "linked/$place/t1explain" e06
    ln -sf "$place/t1explain" linked/explain
    try "a link to t1explain, $place" 0 linked/explain e06
done
wanted <<END
--
install: $top is the repository itself
install: 'bin/install --help' says how it is used
END
try 'install' 3 linked/repository/install --prefix "$top"
wanted <<END
--
install: $scratch/linked/repository/.. is the repository itself
install: 'bin/install --help' says how it is used
END
try 'install, the repository behind a link' 3 "$top/bin/install" --prefix "$scratch/linked/repository/.."
ln -s "$top/man" linked/man
{ limited "$top/man/rules.sh" && echo --; } >wanted
try 'man/rules.sh' 0 linked/man/rules.sh

finish
