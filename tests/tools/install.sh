#!/bin/sh
# Tries what bin/install puts and takes away, and the tools where they are installed.

# shellcheck source=tests/tools/common.sh
. "$(dirname "$0")/common.sh"

leave_home

# Installing, from a copy of what is to be put, so that nothing else of the repository is needed. In the place of man and zsh are
# two that name the folders which they look through.
copy=$scratch/copy
mkdir -p "$copy" "$scratch/shells"
cp -R "$top/bin" "$top/man" "$top/completions" "$top/docs" "$top/README.md" "$top/CHANGELOG.md" "$top/copyright" "$top"/LICENSE-* "$copy/"
mkdir -p "$copy/crates/t1_forms/src"
cp "$top/crates/t1_forms/src/version.rt" "$copy/crates/t1_forms/src/"
for tool in t1check t1check_all t1draw; do
    mkdir -p "$copy/crates/$tool/out"
    cp "$top/crates/$tool/out/$tool" "$copy/crates/$tool/out/"
    : >"$copy/crates/$tool/out/built"
done
cat >"$scratch/shells/man" <<'END'
#!/bin/sh
echo "/usr/share/man:${LOOKS-}/man"
END
cat >"$scratch/shells/zsh" <<'END'
#!/bin/sh
echo "${LOOKS-}/zsh/site-functions"
END
chmod +x "$scratch/shells/man" "$scratch/shells/zsh"
quoted="$scratch/in stalled/it'\\''s"
printf '#!/bin/sh\nexit 1\n' >"$copy/man/rules.sh"
wanted <<END
--
install: not all could be put into $prefix, so nothing is
END
try 'installing where something fails' 3 "$copy/bin/install" --prefix "$prefix"
[ ! -e "$scratch/in stalled" ] || fail 'installing where something fails leaves something'
cp "$top/man/rules.sh" "$copy/man/"
wanted <<END
t1check, t1check-all, t1draw and t1explain are in $prefix/bin.
A shell still needs, in the file that it reads when it starts:
export PATH='$quoted/bin':"\$PATH"
export MANPATH='$quoted/share/man':"\${MANPATH-}"
export XDG_DATA_DIRS='$quoted/share':"\${XDG_DATA_DIRS:-/usr/local/share:/usr/share}"    # completions of bash and fish
fpath=('$quoted/share/zsh/site-functions' \$fpath)    # zsh, before compinit
--
END
try 'installing' 0 env PATH="$scratch/shells:$PATH" "$copy/bin/install" --prefix "$prefix"
wanted <<END
t1check, t1check-all, t1draw and t1explain are in $prefix/bin.
--
END
try 'installing once more, where shells find it' 0 env PATH="$prefix/bin:$scratch/shells:$PATH" LOOKS="$prefix/share" \
    XDG_DATA_DIRS="/usr/share:$prefix/share/" "$copy/bin/install" "--prefix=$prefix/"
rm -rf "$copy"
wanted <<'END'
./bin/t1check
./bin/t1check-all
./bin/t1draw
./bin/t1explain
./libexec/t1check/t1check_all
./share/bash-completion/completions/t1check
./share/bash-completion/completions/t1check-all
./share/bash-completion/completions/t1draw
./share/bash-completion/completions/t1explain
./share/doc/t1check/CHANGELOG.md
./share/doc/t1check/LICENSE-APACHE
./share/doc/t1check/LICENSE-MIT
./share/doc/t1check/README.md
./share/doc/t1check/copyright
./share/doc/t1check/docs/BROWSER.md
./share/doc/t1check/docs/DESIGNERS.md
./share/doc/t1check/docs/GUIDE.md
./share/doc/t1check/docs/RECIPES.md
./share/doc/t1check/docs/REFERENCE.md
./share/doc/t1check/docs/RULES.md
./share/doc/t1check/docs/T1LINT.md
./share/doc/t1check/docs/pictures/H02.svg
./share/doc/t1check/docs/pictures/K05.svg
./share/doc/t1check/docs/pictures/P02.svg
./share/doc/t1check/docs/pictures/P03.svg
./share/doc/t1check/docs/pictures/X05.svg
./share/doc/t1check/docs/pictures/letter.svg
./share/doc/t1check/docs/pictures/page.png
./share/doc/t1check/docs/recipes/Jenkinsfile
./share/doc/t1check/docs/recipes/Jenkinsfile-node
./share/doc/t1check/docs/recipes/github-node.yml
./share/doc/t1check/docs/recipes/github.yml
./share/doc/t1check/docs/recipes/gitlab-node.yml
./share/doc/t1check/docs/recipes/gitlab.jq
./share/doc/t1check/docs/recipes/gitlab.yml
./share/doc/t1check/docs/recipes/pre-commit-config.yaml
./share/doc/t1check/docs/recipes/rows.jq
./share/doc/t1check/docs/recipes/sums.awk
./share/doc/t1check/docs/recipes/table.jq
./share/doc/t1check/docs/t1check.html
./share/fish/vendor_completions.d/t1check-all.fish
./share/fish/vendor_completions.d/t1check.fish
./share/fish/vendor_completions.d/t1draw.fish
./share/fish/vendor_completions.d/t1explain.fish
./share/man/man1/t1check-all.1
./share/man/man1/t1check.1
./share/man/man1/t1draw.1
./share/man/man1/t1explain.1
./share/man/man7/t1check-rules.7
./share/t1check/RULES.md
./share/t1check/commit
./share/t1check/installed
./share/t1check/version
./share/zsh/site-functions/_t1check
--
END
try 'what is installed' 0 sh -c "cd \"$prefix\" && find . ! -type d | sort"
wanted <<'END'
glyphs.pfb: 3: glyph A 5 6 P03 closepath without a path
--
END
try 'an installed t1check-all' 1 "$prefix/bin/t1check-all" -q --only P03 glyphs.pfb
try 'an installed t1check-all and two fonts' 1 "$prefix/bin/t1check-all" -q --only P03 glyphs.pfb edge.pfb
echo 0123abc >"$prefix/share/t1check/commit"
wanted <<'END'
t1check-all 1.0.0 of commit 0123abc
--
END
try 'the version of an installed t1check-all' 0 "$prefix/bin/t1check-all" --version
wanted <<'END'
t1explain 1.0.0
--
END
try 'the version of an installed t1explain' 0 "$prefix/bin/t1explain" --version
wanted <<'END'
install of t1check 1.0.0
--
END
try 'the version of install' 0 "$top/bin/install" --version
wanted <<'END'
3: glyph A 5 6 P03 closepath without a path
--
END
try 'an installed t1check' 1 "$prefix/bin/t1check" --after 2 --max 1 glyphs.pfb
wanted <<'END'
{"code":"P03","file":"glyphs.pfb","level":"tidy","name":"A","number":3,"path":[5],"step":6,"text":"closepath without a path","unit":"glyph"}
--
END
try 'an installed t1check-all with jsonl' 1 "$prefix/bin/t1check-all" -q --only P03 --format jsonl glyphs.pfb
mkdir "$scratch/linked"
ln -s "$all" "$scratch/linked/check"
try 't1check-all of the repository, by a link' 1 linked/check -q --only P03 --format jsonl glyphs.pfb
{ cat "$top/tests/draw/square.svg" && echo --; } >"$scratch/wanted"
try 'an installed t1draw' 0 "$prefix/bin/t1draw" A "$top/tests/draw/fonts/square.pfb"
wanted <<'END'
E06 encrypted part too short

Fewer than four encrypted bytes come after `eexec`.

The file was cut, or an editor changed the encrypted bytes.

Example: a file that ends after `currentfile eexec`.

Cure: take it from its source again.
--
END
ln -s "$prefix/bin/t1explain" "$scratch/linked/explain"
try 'an installed t1explain, by a link' 0 "$scratch/linked/explain" e06

# Taking away. What others put there stays, and so do folders that are not empty.
(cd "$prefix" && find . -type d | while read -r folder; do : >"$folder/foreign"; done)
wanted <<'END'
--
END
try 'taking away' 0 "$top/bin/install" --prefix "$prefix" --remove
wanted <<'END'
./bin/foreign
./foreign
./libexec/foreign
./libexec/t1check/foreign
./share/bash-completion/completions/foreign
./share/bash-completion/foreign
./share/doc/foreign
./share/doc/t1check/docs/foreign
./share/doc/t1check/docs/pictures/foreign
./share/doc/t1check/docs/recipes/foreign
./share/doc/t1check/foreign
./share/fish/foreign
./share/fish/vendor_completions.d/foreign
./share/foreign
./share/man/foreign
./share/man/man1/foreign
./share/man/man7/foreign
./share/t1check/foreign
./share/zsh/foreign
./share/zsh/site-functions/foreign
--
END
try 'what is left' 0 sh -c "cd \"$prefix\" && find . ! -type d | sort"
wanted <<END
--
install: nothing is installed in $prefix
END
try 'taking away what is not there' 3 "$top/bin/install" --prefix "$prefix" --remove
mkdir -p "$scratch/before/share/man"
limited env DESTDIR="$scratch/before" "$top/bin/install" --prefix "/" >given
limited env DESTDIR="$scratch/before/stage" "$top/bin/install" --prefix /usr/local >>given
wanted <<END
t1check, t1check-all, t1draw and t1explain are in $scratch/before/bin.
t1check, t1check-all, t1draw and t1explain are in $scratch/before/stage/usr/local/bin.
--
END
try 'installing with DESTDIR' 0 cat given
limited env DESTDIR="$scratch/before" "$top/bin/install" --prefix / --remove
limited env DESTDIR="$scratch/before/stage" "$top/bin/install" --prefix /usr/local --remove
wanted <<'END'
before
before/share
before/share/man
--
END
try 'folders that were there before stay, others go' 0 sh -c 'find before | sort'
mkdir -p "$scratch/home/.local/bin"
ln -s "$scratch/glyphs.pfb" "$scratch/home/.local/bin/t1explain"
wanted <<END
--
install: this is there already, and no install put it there:
$scratch/home/.local/bin/t1explain
END
try 'a file that another put there' 3 "$top/bin/install"

# What was there before stays: folders, also those with nothing in them, and files of others in folders that install made.
mkdir -p there/below/share/man/man1 there/below/lib
limited "$top/bin/install" --prefix "$scratch/there/below" >/dev/null
: >there/below/share/zsh/site-functions/_other
wanted <<'END'
--
END
try 'taking away beside what was there' 0 "$top/bin/install" --prefix "$scratch/there/below" --remove
wanted <<'END'
there
there/below
there/below/lib
there/below/share
there/below/share/man
there/below/share/man/man1
there/below/share/zsh
there/below/share/zsh/site-functions
there/below/share/zsh/site-functions/_other
--
END
try 'what was there before' 0 sh -c 'find there | sort'
rm -rf there
mkdir -p there/below
limited "$top/bin/install" --prefix "$scratch/there/below" >/dev/null
limited "$top/bin/install" --prefix "$scratch/there/below" --remove
wanted <<'END'
there
there/below
--
END
try 'an empty folder as prefix' 0 sh -c 'find there | sort'

# A prefix is relative to the folder where install runs. Whatever the mask there, all users may read what is installed.
limited sh -c "umask 077; cd there && '$top/bin/install' --prefix below" >given
wanted <<END
t1check, t1check-all, t1draw and t1explain are in $scratch/there/below/bin.
export PATH='$scratch/there/below/bin':"\$PATH"
--
END
try 'a relative prefix' 0 sed -n '1p; /^export PATH=/p' given
wanted <<'END'
--
END
try 'what others may not read' 0 find there/below/bin there/below/libexec there/below/share ! -perm -044 -o -type d ! -perm -055
try 'what others may not run' 0 find there/below/bin there/below/libexec ! -perm -055

# Files of an older version, which had more, go.
echo share/t1check/old >>there/below/share/t1check/installed
: >there/below/share/t1check/old
limited "$top/bin/install" --prefix there/below >/dev/null
wanted <<'END'
RULES.md
commit
installed
version
--
END
try 'files of an older version' 0 ls there/below/share/t1check

# A file that is there and not in the record is of another, and so is a link that leads nowhere.
grep -v '^bin/t1check$' there/below/share/t1check/installed >record
cat record >there/below/share/t1check/installed
wanted <<END
--
install: this is there already, and no install put it there:
$scratch/there/below/bin/t1check
END
try 'a file that is not in the record' 3 "$top/bin/install" --prefix there/below
rm there/below/bin/t1draw
mkdir there/below/bin/t1draw
wanted <<END
--
install: $scratch/there/below/bin/t1draw can't be taken away
END
# Before that rm says in its own words that this is a folder.
try "a file that can't be taken away" 3 sh -c "'$top/bin/install' --prefix there/below --remove 2>given
    given=\$?
    tail -n 1 given >&2
    exit \$given"
rm -rf there
mkdir -p there/bin
ln -s nowhere there/bin/t1draw
wanted <<END
--
install: this is there already, and no install put it there:
$scratch/there/bin/t1draw
END
try 'a link that leads nowhere' 3 "$top/bin/install" --prefix there
wanted <<END
--
install: $top is the repository itself
install: 'bin/install --help' says how it is used
END
try 'the repository itself' 3 "$top/bin/install" --prefix "$top/"
wanted <<END
--
install: --prefix wants a folder
install: 'bin/install --help' says how it is used
END
try 'no prefix' 3 "$top/bin/install" --remove --prefix
try 'an option in place of a prefix' 3 "$top/bin/install" --prefix --remove
try 'an empty prefix' 3 "$top/bin/install" --prefix=
wanted <<END
--
install: unknown option --preefix
install: 'bin/install --help' says how it is used
END
try 'an unknown option of install' 3 "$top/bin/install" --preefix here

finish
