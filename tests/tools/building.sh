#!/bin/sh
# Tries how the scripts in bin/ build their programs: `--build` alone does, where there is none yet, and where a source is newer. It shows how far it is.
# Where no program is built of the sources here, node runs that of the release.

# shellcheck source=tests/tools/common.sh
. "$(dirname "$0")/common.sh"

# A script in the place of rt keeps where it runs and its words, prints what rt prints of two functions, and makes a program that prints its own
# name and words, or the stamp of a library. A file `fails` makes it fail, a file `edit` makes it edit a source in the middle of its work.
build=$scratch/build
mkdir -p "$build/crates/t1check/src" "$build/crates/t1check_all/src" "$build/crates/t1draw/src" "$scratch/kit"
mkdir -p "$build/crates/t1_x/specs/deep" "$build/crates/t1_x/proofs" "$build/docs"
cp -R "$top/bin" "$build/"
: >"$build/docs/RULES.md"
: >"$build/docs/REFERENCE.md"
: >"$build/crates.txt"
cat >"$scratch/kit/rt" <<'END'
#!/bin/sh
tool=${PWD##*/}
echo "$tool: rt $*" >>../../runs
[ ! -e ../../fails ] || { echo 'not proved' >&2; exit 1; }
[ ! -e ../../edit ] || { sleep 1; mv ../../edit src/edit.rt; touch src/edit.rt; sleep 1; }
echo 'so far: 1 of 2 functions checked; the verdict comes last'
[ "$1" = run ] || { mkdir -p out/rlib && : >out/rlib/stamp; exit; }
echo 'so far: 2 of 2 functions checked'
printf '#!/bin/sh\necho "${0##*/}: $*"\n' >"out/$tool" && chmod +x "out/$tool"
END
chmod +x "$scratch/kit/rt"
for tool in t1check t1draw t1check-all; do
    crate=$(echo "$tool" | tr - _)
    wanted <<END
--
$crate: proving and building crate 1 of 1, $crate
END
    try "building $tool" 0 env PATH="$scratch/kit:$PATH" "$build/bin/$tool" --build
    wanted <<END
$crate: a  b
--
END
    try "$tool, which is built" 0 env PATH="$scratch/kit:$PATH" "$build/bin/$tool" 'a  b'
done
touch -t 203001010000 "$build/crates/t1check/src/new.rt"
wanted <<'END'
--
t1check: proving and building crate 1 of 1, t1check
END
try 'building t1check anew' 0 env PATH="$scratch/kit:$PATH" "$build/bin/t1check" --build
wanted <<'END'
t1check: rt run -- --help
t1draw: rt run -- --help
t1check_all: rt run -- --help
t1check: rt run -- --help
--
END
try 'what was built' 0 cat "$build/runs"
touch -t 200001010000 "$build/crates/t1check/src/new.rt"

# The list of crates, definitions and proofs count as sources do. The first run of each builds, the second does not.
wanted <<'END'
t1check: a
built 1
--
END
for source in crates.txt crates/t1_x/specs/new.antt crates/t1_x/specs/deep/new.antt crates/t1_x/proofs/new.antt; do
    : >"$build/runs"
    touch -t 203001010000 "$build/$source"
    # shellcheck disable=SC2016
    try "building for $source" 0 env PATH="$scratch/kit:$PATH" sh -c '"$0/bin/t1check" --build 2>/dev/null
        touch -t 200001010000 "$0/$1"
        "$0/bin/t1check" --build
        "$0/bin/t1check" a
        echo built $(wc -l <"$0/runs")' "$build" "$source"
done

# A source that is edited during a build is newer than it: the second run builds again, the third does not.
: >"$build/runs"
: >"$build/edit"
touch -t 203001010000 "$build/crates.txt"
wanted <<'END'
built 2
--
END
# shellcheck disable=SC2016
try 'a source that is edited during a build' 0 env PATH="$scratch/kit:$PATH" sh -c '"$0/bin/t1check" --build 2>/dev/null
    touch -t 200001010000 "$0/crates.txt"
    "$0/bin/t1check" --build 2>/dev/null
    "$0/bin/t1check" --build
    echo built $(wc -l <"$0/runs")' "$build"

# The libraries below a program are proved first, each once, and those above one that has changed.
mkdir -p "$build/crates/t1_y/src" "$build/crates/t1_z/src"
printf 't1_x:\nt1_z:\nt1_y: t1_x hex\nt1check: t1_y clap\n' >"$build/crates.txt"
touch -t 200001010000 "$build/crates.txt"
show() {
    : >"$build/runs"
    rm -f "$build/crates/t1check/out/built"
    wanted
    try "$1" 0 env PATH="$scratch/kit:$PATH" "$build/bin/t1check" --build
}
show 'building libraries' <<'END'
--
t1check: proving crate 1 of 3, t1_x
t1check: proving crate 2 of 3, t1_y
t1check: proving and building crate 3 of 3, t1check
END
show 'libraries that are built' <<'END'
--
t1check: proving and building crate 3 of 3, t1check
END
touch -t 203001010000 "$build/crates/t1_y/src/new.rt"
show 'a library that has changed' <<'END'
--
t1check: proving crate 2 of 3, t1_y
t1check: proving and building crate 3 of 3, t1check
END
touch -t 200001010000 "$build/crates/t1_y/src/new.rt"
wanted <<'END'
t1_y: rt lib
t1check: rt run -- --help
--
END
try 'what was proved' 0 cat "$build/runs"

# On a terminal one line moves, and is cleared.
if [ "$(limited script -qec 'echo here' /dev/null </dev/null 2>/dev/null | tr -d '\r')" = here ]; then
    rm -f "$build/crates/t1check/out/built"
    touch -t 203001010000 "$build/crates/t1_y/src/new.rt"
    for place in '2 of 3, t1_y' '2 of 3, t1_y, function 1 of 2'; do
        printf '\r%s\033[K' "t1check: proving crate $place" >>"$scratch/moved"
    done
    printf '\r\033[K\r%s\033[K' 't1check: proving and building crate 3 of 3, t1check' >>"$scratch/moved"
    for function in '1 of 2' '2 of 2'; do
        printf '\r%s\033[K' "t1check: proving and building crate 3 of 3, t1check, function $function" >>"$scratch/moved"
    done
    printf '\r\033[K' >>"$scratch/moved"
    limited env PATH="$scratch/kit:$PATH" script -qec "exec '$build/bin/t1check' --build" /dev/null </dev/null >"$scratch/shown"
    if cmp -s "$scratch/moved" "$scratch/shown"; then
        pass
    else
        fail "a build on a terminal: $(cat "$scratch/shown")"
    fi
else
    echo "skipped: a build on a terminal, since script isn't here (Debian: bsdutils)"
fi
: >"$build/crates.txt"

: >"$build/fails"
touch -t 203001010000 "$build/crates.txt"
wanted <<'END'
--
t1check: proving and building crate 1 of 1, t1check
not proved
END
try 'a build that fails' 3 env PATH="$scratch/kit:$PATH" "$build/bin/t1check" --build
wanted <<'END'
--
t1check_all: proving and building crate 1 of 1, t1check_all
not proved
END
try 'a build of t1check-all that fails' 3 env PATH="$scratch/kit:$PATH" "$build/bin/t1check-all" --build

# ---- without a build

# Help and versions need no program. The files of help are what the programs print.
mkdir -p "$scratch/fresh/crates/t1_forms/src" "$scratch/fresh/docs" "$scratch/fresh/web" "$scratch/no tools" "$scratch/nodes"
cp -R "$top/bin" "$scratch/fresh/"
cp "$top/crates/t1_forms/src/version.rt" "$scratch/fresh/crates/t1_forms/src/"
cp "$top/docs/RULES.md" "$top/docs/REFERENCE.md" "$scratch/fresh/docs/"
: >"$scratch/fresh/crates.txt"
for tool in sh dirname sed cat find head git grep; do
    ln -s "$(command -v "$tool")" "$scratch/no tools/"
done
for tool in t1check t1check-all t1draw; do
    "$top/bin/$tool" --help >"$scratch/help"
    wanted <"$scratch/help"
    try "the file of $tool's help" 0 cat "$top/bin/help/$tool.txt"
    try "$tool's help without a build" 0 env PATH="$scratch/no tools" "$scratch/fresh/bin/$tool" --help
    wanted <<END
$tool 1.0.0
--
END
    try "$tool's version without a build" 0 env PATH="$scratch/no tools" "$scratch/fresh/bin/$tool" --version
done
wanted <<'END'
t1explain 1.0.0
--
END
try "t1explain's version without a build" 0 env PATH="$scratch/no tools" "$scratch/fresh/bin/t1explain" --version
for script in install release; do
    wanted <<END
$script of t1check 1.0.0
--
END
    try "$script's version without a build" 0 env PATH="$scratch/no tools" "$scratch/fresh/bin/$script" --version
done

# Where no program is built of the sources here, node runs that of the release, whatever the words are. A script in node's place prints its words.
cat >"$scratch/nodes/node" <<'END'
#!/bin/sh
echo "node ${1##*/}"
shift
for word; do printf '<%s>\n' "$word"; done
exit 1
END
chmod +x "$scratch/nodes/node"
mkdir -p "$scratch/fresh/web/modules"
for tool in t1check t1check-all t1draw; do
    : >"$scratch/fresh/web/modules/$(echo "$tool" | tr - _).wasm.gz"
    wanted <<END
node $tool.mjs
<--nosuch>
<a  b>
<>
--
END
    try "$tool by node" 1 env PATH="$scratch/nodes:$scratch/no tools" "$scratch/fresh/bin/$tool" --nosuch 'a  b' ''
    wanted <<END
--
$tool: the program isn't built, and node, which would run that of the release, isn't on the path
$tool: 'bin/$tool --build' builds it, with the Rattle kit; $scratch/fresh/docs/t1check.html checks fonts in a browser
END
    try "neither $tool nor node" 3 env PATH="$scratch/no tools" "$scratch/fresh/bin/$tool" font.pfb
    crate=$(echo "$tool" | tr - _)
    wanted <<END
--
$crate: the program has to be built, and 'rt', the command of the Rattle kit, isn't on the path
$crate: see 'Build and test' in $scratch/fresh/README.md
END
    try "no rt for $tool" 3 env PATH="$scratch/nodes:$scratch/no tools" "$scratch/fresh/bin/$tool" --build
done

# Where the program is built, it answers; where a source is newer, node does.
mkdir -p "$scratch/fresh/crates/t1check/out"
cp "$build/crates/t1check/out/t1check" "$scratch/fresh/crates/t1check/out/"
: >"$scratch/fresh/crates/t1check/out/built"
wanted <<'END'
t1check: font.pfb
--
END
try 'the program, where it is built' 0 env PATH="$scratch/nodes:$scratch/no tools" "$scratch/fresh/bin/t1check" font.pfb
touch -t 203001010000 "$scratch/fresh/crates.txt"
wanted <<'END'
node t1check.mjs
<font.pfb>
--
END
try 'node, where a source is newer' 1 env PATH="$scratch/nodes:$scratch/no tools" "$scratch/fresh/bin/t1check" font.pfb

# On a terminal it is said that node answers, and whether the sources are those of the release.
if [ "$(limited script -qec 'echo here' /dev/null </dev/null 2>/dev/null | tr -d '\r')" = here ]; then
    mkdir -p "$scratch/fresh/tests/draw/fonts"
    : >"$scratch/fresh/web/host.mjs"
    : >"$scratch/fresh/tests/draw/fonts/letter.pfb"
    for newer in '' '; sources here are newer than it'; do
        sum=$(top=$scratch/fresh && . "$top/bin/build.sh" && sources_sum)
        echo "${newer:+x}$sum" >"$scratch/fresh/web/modules/sources"
        said="t1check: the program isn't built, so node runs that of the release$newer (bin/t1check --build builds it)"
        printf '%s\r\nnode t1check.mjs\r\n<font.pfb>\r\n' "$said" >"$scratch/said"
        limited env PATH="$scratch/nodes:$PATH" script -qec "exec '$scratch/fresh/bin/t1check' font.pfb" /dev/null </dev/null >"$scratch/shown"
        if cmp -s "$scratch/said" "$scratch/shown"; then pass; else fail "node on a terminal: $(cat "$scratch/shown")"; fi
    done
fi

finish
