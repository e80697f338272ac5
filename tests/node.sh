#!/bin/sh
# Tries the programs under node: runs the cases of tests/program, tests/draw and tests/tools a second time in a copy of the repository in which node
# answers for the programs, starts the scripts in web/ as a user does, and compares reports of real fonts with those of the built programs. Names what
# fails, and what is skipped where node or wasm-opt (Debian: nodejs, binaryen) isn't installed; the last line counts passed and failed.
#
# In the copy a program is tests/web/client.sh, which has its words, folder and descriptors used by one process of node, serve.mjs. These can't be tried so:
#   memory of a limit     a limit of the script isn't one of node's; an instance of a module has its own, of 4 GiB
#   rest of the input     serve.mjs opens it anew; it is tried below
#   signals, an end by another status than the program's own      there is no process of its own
set -u
LC_ALL=C
export LC_ALL

top=$(CDPATH='' cd -P -- "$(dirname "$0")/.." && pwd -P) || exit 1
fonts=$top/tests/program/fonts
scratch=$(mktemp -d) || exit 1
server=''
trap '[ -z "$server" ] || kill "$server" 2>/dev/null; rm -rf "$scratch"' EXIT
trap 'exit 1' HUP INT TERM
passed=0
failed=0

pass() {
    passed=$((passed + 1))
}

fail() {
    failed=$((failed + 1))
    printf 'failed: %s\n' "$1"
}

finish() {
    printf '%d passed, %d failed\n' "$passed" "$failed"
    [ "$failed" -eq 0 ]
    exit
}

for tool in node:nodejs wasm-opt:binaryen; do
    command -v "${tool%:*}" >/dev/null || {
        echo "skipped: the programs under node, since ${tool%:*} isn't here (Debian: ${tool#*:})"
        finish
    }
done
if [ "$(node -p 'Number.parseInt(process.versions.node, 10) >= 20')" != true ]; then
    echo "skipped: the programs under node, since node 20 or later isn't here (Debian: nodejs)"
    finish
fi
for tool in t1check t1check-all t1draw; do
    "$top/bin/$tool" --build || {
        fail "bin/$tool --build"
        finish
    }
done
# shellcheck source=bin/build.sh
. "$top/bin/build.sh"
# What is tried is what users have: where the sources have changed since, it may still answer as the programs do.
are_modules_kept || echo 'web/modules is not made of these sources: bin/release makes it'
mkdir "$scratch/modules"
for name in t1check t1check_all t1draw; do
    gzip -d -c "$top/web/modules/$name.wasm.gz" >"$scratch/modules/$name.wasm" || {
        fail "web/modules/$name.wasm.gz isn't there: run bin/release"
        finish
    }
done
size=$(cat "$top"/web/modules/*.gz | wc -c)
if [ "$size" -le 1200000 ]; then pass; else fail "the modules have $size bytes, of 1,200,000"; fi

# ---- the cases of the programs

# A copy of the repository without what is built, where each program is a client of the modules.
copied=$scratch/copied
copy() {
    mkdir "$copied" "$scratch/requests"
    (cd "$top" && tar --exclude=./.git --exclude='./crates/*/out' --exclude=./web/out -cf - .) | (cd "$copied" && tar -xf -)
    mkfifo "$scratch/requests/pipe"
    for name in t1check t1check_all t1draw; do
        mkdir -p "$copied/crates/$name/out"
        sed "s|REQUESTS\$|$scratch/requests/pipe|" "$top/tests/web/client.sh" >"$copied/crates/$name/out/$name"
        chmod +x "$copied/crates/$name/out/$name"
        : >"$copied/crates/$name/out/built"
    done
    rm -f "$copied"/tests/program/*memory*.case "$copied"/tests/draw/*memory*.case "$copied"/tests/program/input_beside_*.case
    node "$top/tests/web/serve.mjs" "$scratch/modules" "$scratch/requests/pipe" >"$scratch/served" 2>&1 &
    server=$!
}

leave_copy() {
    echo end >"$scratch/requests/pipe"
    wait "$server" || {
        cat "$scratch/served"
        fail 'tests/web/serve.mjs stopped'
    }
    server=''
}

# Runs a script of the copy, shows what it prints but for its counts, and adds these up: SCRIPT WORDS...
run() {
    script=$1
    shift
    { timeout -k 5 900 "$copied/tests/$script" "$@" 2>&1; echo $? >"$scratch/status"; } |
        tee "$scratch/printed" | sed '/^[0-9][0-9]* passed, [0-9][0-9]* failed$/d; s/^/node: /'
    status=$(cat "$scratch/status")
    counts=$(sed -n '$s/^\([0-9][0-9]*\) passed, \([0-9][0-9]*\) failed$/\1 \2/p' "$scratch/printed")
    case "$status $counts" in
        '0 '*' 0' | '1 '*' '[1-9]*) ;;
        *)
            fail "tests/$script by node ended with status $status, its counts are '$counts'"
            return
            ;;
    esac
    passed=$((passed + ${counts% *}))
    failed=$((failed + ${counts#* }))
}

copy
run program.sh
run draw.sh
run tools.sh baseline choice explain forms limits names progress reasons settings terminal usage waivers
leave_copy
[ "$failed" -eq 0 ] || are_modules_kept || echo 'failed: web/modules is older than the sources: run bin/release'

# ---- what system.c calls, by this host and by node's own

clang=$(dirname "$(dirname "$(readlink -f "$(command -v rt)")")")/toolchain/bin/clang
for file in web/heap web/helpers web/system tests/web/calls; do
    "$clang" --target=wasm64-unknown-unknown --no-default-config -mcpu=lime1 -O2 -ffreestanding -fno-builtin -nostdinc -Werror -c "$top/$file.c" \
        -o "$scratch/${file##*/}.o" || fail "$file.c"
done
if "${clang%clang}ld.lld" -flavor wasm -mwasm64 --no-entry --export=_start --gc-sections -o "$scratch/linked.wasm" "$scratch/calls.o" "$scratch/heap.o" \
    "$scratch/helpers.o" "$scratch/system.o" &&
    wasm-opt --enable-memory64 --enable-bulk-memory --enable-sign-ext --enable-mutable-globals --enable-nontrapping-float-to-int --memory64-lowering \
        "$scratch/linked.wasm" -o "$scratch/calls.wasm"; then
    for host in own wasi; do
        mkdir -p "$scratch/$host/many"
        (cd "$scratch/$host" && touch many/a many/bc many/ü 'many/thirty characters are long here' && ln -s made leads)
        NODE_NO_WARNINGS=1 node "$top/tests/web/calls.mjs" "$host" "$scratch/calls.wasm" "$scratch/$host" >"$scratch/told"
        status=$?
        # Node's own has other errors for a descriptor that isn't open for this, and no modes.
        case $host in
            own) sed 's/|.*//' "$top/tests/web/calls.txt" ;;
            wasi) sed 's/.*|//' "$top/tests/web/calls.txt" ;;
        esac >"$scratch/wanted"
        if [ "$status" -eq 3 ] && diff "$scratch/wanted" "$scratch/told"; then pass; else fail "the calls of system.c by the host $host: status $status"; fi
    done
else
    fail 'tests/web/calls.c'
fi
if NODE_NO_WARNINGS=1 node "$top/tests/web/modules.mjs" "$scratch/modules" "$fonts"; then pass; else fail 'the modules by node:wasi, or their tables'; fi

# ---- as a user starts them

# Whether a script answers as the program does: COMMAND WORDS... What `input` names is on standard input, in `folder` both run.
input=/dev/null folder=$fonts
same() {
    command=$1
    shift
    (cd "$folder" && timeout -k 5 60 "$top/bin/$command" "$@") <"$input" >"$scratch/program.out" 2>"$scratch/program.err"
    echo $? >"$scratch/program.status"
    (cd "$folder" && timeout -k 5 60 node "$top/web/$command.mjs" "$@") <"$input" >"$scratch/node.out" 2>"$scratch/node.err"
    echo $? >"$scratch/node.status"
    for part in status out err; do
        cmp -s "$scratch/program.$part" "$scratch/node.$part" && continue
        fail "node web/$command.mjs $*: another $part (< the program's)"
        diff "$scratch/program.$part" "$scratch/node.$part"
        return
    done
    pass
}

same t1check --help
same t1check --nosuch
same t1check one two
same t1check H02.pfb
same t1check --edition 4 H02.pfb
same t1check --edition 5 H02.pfb
same t1check --trace A H02.pfb
same t1check --max 1 --waive nosuch H02.pfb
same t1check E03.bin
same t1check "$(printf 'b\377d.pfb')"
same t1draw A H02.pfb
same t1draw -h
same t1check-all --help
same t1check-all --version
same t1check-all --baseline
same t1check-all -q --reasons H02.pfb ../fonts/Z05.pfb "$fonts/E03.bin" nosuch.pfb
same t1check-all --format sarif .
same t1check-all --explain H02
input=$fonts/H02.pfb
same t1check
same t1check-all -
input=/dev/null

# Files that are hard to read.
hard=$scratch/hard
mkdir -p "$hard/closed" "$hard/deep/er"
cp "$fonts/Z05.pfb" "$hard/closed/"
cp "$fonts/Z05.pfb" "$hard/deep/er/$(printf 'two\nlines.pfb')"
cp "$fonts/Z05.pfb" "$hard/deep/$(printf 'b\377d.pfb')"
ln -s nowhere "$hard/leads.pfb"
ln -s . "$hard/deep/loop"
mkfifo "$hard/pipe.pfb"
mkdir "$hard/folder.pfb"
{ cat "$fonts/H02.pfb" && truncate -s 200000000 /dev/stdout 2>/dev/null; } >"$hard/large.pfb"
truncate -s 200000000 "$hard/large.pfb"
folder=$hard
same t1check large.pfb
same t1check deep
same t1check-all large.pfb leads.pfb folder.pfb pipe.pfb closed/../closed deep
same t1check-all deep/loop/loop/er "$(printf 'two\nlines.pfb')"
if command -v setpriv >/dev/null && setpriv --reuid=65534 --clear-groups true 2>/dev/null && chmod 755 "$scratch" "$hard"; then
    chmod 700 "$hard/closed"
    (cd "$hard" && setpriv --reuid=65534 --clear-groups "$top/crates/t1check_all/out/t1check_all" closed) >"$scratch/program.out" 2>&1
    status=$?
    (cd "$hard" && setpriv --reuid=65534 --clear-groups node "$top/web/t1check-all.mjs" closed) >"$scratch/node.out" 2>&1
    if [ "$?" -eq "$status" ] && diff "$scratch/program.out" "$scratch/node.out"; then pass; else fail "a folder that can't be read"; fi
else
    echo "skipped: a folder that can't be read under node, since setpriv can't be used here (Debian: util-linux)"
fi

# What is left of the input, and descriptors that are closed or full, by the scripts in bin/ of a clone where nothing is built.
clone=$scratch/clone
mkdir -p "$clone/crates/t1_forms/src" "$clone/docs" && cp -R "$top/bin" "$top/web" "$clone/" && cp "$top/crates/t1_forms/src/version.rt" "$clone/crates/t1_forms/src/"
cp "$top/docs/RULES.md" "$clone/docs/"
: >"$clone/crates.txt"
ended() {
    for by in "$top" "$clone"; do
        (cd "$fonts" && sh -c "exec \"\$0/bin/\"$1" "$by") >"$scratch/${by##*/}.out" 2>"$scratch/${by##*/}.err"
        echo "$?" >>"$scratch/${by##*/}.out"
        sed -i '/Permission denied$/d' "$scratch/${by##*/}.err"
    done
    if diff "$scratch/${top##*/}.out" "$scratch/clone.out" && diff "$scratch/${top##*/}.err" "$scratch/clone.err"; then pass; else fail "by node: $1"; fi
}
for command in 't1check H02.pfb' 't1check-all H02.pfb' 't1draw A H02.pfb' 't1check clean.pfb' 't1check E03.bin' 't1check --nosuch'; do
    for device in '</dev/null' '>&-' '2>&-' '<&-' '>&- 2>&-' '>/dev/full' '2>/dev/full'; do
        ended "$command $device"
    done
done
ended 't1check <&-'
ended 't1check-all - <&-'
(cd "$fonts" && { node "$top/web/t1check.mjs" H02.pfb >/dev/null; cat; } <E03.bin) >"$scratch/rest"
if cmp -s "$fonts/E03.bin" "$scratch/rest"; then pass; else fail 'the rest of the input'; fi

# A terminal: its width, colours, and progress.
if [ "$(script -qec 'echo here' /dev/null </dev/null 2>/dev/null | tr -d '\r')" = here ]; then
    for words in 'H02.pfb Z05.pfb' '-q --only P,Z zones_and_glyphs.pfb' '--format sarif H02.pfb'; do
        for setting in NO_COLOR=1 NO_COLOR= TERM=dumb; do
            for by in "$top/bin/t1check-all" "node $top/web/t1check-all.mjs"; do
                (cd "$fonts" && env TERM=xterm "$setting" script -qec "stty cols 50; exec $by $words" /dev/null </dev/null)
            done >"$scratch/shown"
            half=$(($(wc -c <"$scratch/shown") / 2))
            head -c "$half" "$scratch/shown" >"$scratch/first"
            if tail -c +"$((half + 1))" "$scratch/shown" | cmp -s - "$scratch/first" && [ "$half" -gt 50 ]; then
                pass
            else
                fail "a terminal: $setting $words: $(cat "$scratch/shown")"
            fi
        done
    done
else
    echo "skipped: the programs under node on a terminal, since script isn't here (Debian: bsdutils)"
fi

# A node that says that it is Windows: names have slashes, and what one system wrote serves on the other.
windows="--import=data:text/javascript,Object.defineProperty(process,'platform',{value:'win32'})"
mkdir -p "$scratch/systems/fonts/old" && cp "$fonts/H02.pfb" "$fonts/Z05.pfb" "$scratch/systems/fonts/" && cp "$fonts/P02.pfb" "$scratch/systems/fonts/old/"
answers() {
    wanted=$1
    shift
    (cd "$scratch/systems" && "$@") >"$scratch/given" 2>&1
    echo "status $?" >>"$scratch/given"
    if printf '%b' "$wanted" | diff - "$scratch/given"; then pass; else fail "$*"; fi
}
answers 'fonts/H02.pfb: 1: glyph A - 9 H02 stems overlap\nstatus 1\n' node "$windows" "$top/web/t1check-all.mjs" -q 'fonts\H02.pfb'
answers 'fonts/H02.pfb: 1: glyph A - 9 H02 stems overlap\nstatus 1\n' node "$windows" "$top/web/t1check-all.mjs" -q fonts --exclude 'fonts\old\*' --except Z
answers 'status 0\n' node "$windows" "$top/web/t1check-all.mjs" -q --baseline '.\known.txt' --update-baseline 'fonts\old' '.\fonts\H02.pfb'
answers 'status 0\n' "$top/bin/t1check-all" -q --baseline known.txt fonts/old ./fonts/H02.pfb
printf 'exclude = ["old/**"]\nonly = ["H"]\n' >"$scratch/systems/fonts/.t1check.toml"
answers 'fonts/H02.pfb: 1: glyph A - 9 H02 stems overlap\nstatus 1\n' node "$windows" "$top/web/t1check-all.mjs" -q 'fonts\'
answers 'status 0\n' "$top/bin/t1check-all" -q --baseline known.txt --update-baseline fonts
answers 'status 0\n' node "$windows" "$top/web/t1check-all.mjs" -q --baseline known.txt 'fonts'
answers 'status 0\n' node "$windows" "$top/web/t1check-all.mjs" -q --write-waivers 'fonts\H02.pfb'
answers 'status 0\n' "$top/bin/t1check-all" -q fonts/H02.pfb
answers '1: glyph A - 9 H02 stems overlap\nstatus 1\n' node "$windows" "$top/web/t1check.mjs" fonts/H02.pfb

# A node that is too old, and a module that is cut short or isn't there.
old="--import=data:text/javascript,Object.defineProperty(process.versions,'node',{value:'18.20.4'})"
answers 't1check: node 20 is needed, and this is 18.20.4\nstatus 3\n' node "$old" "$top/web/t1check.mjs" fonts/H02.pfb
head -c 100000 "$top/web/modules/t1check.wasm.gz" >"$clone/web/modules/t1check.wasm.gz"
answers "t1check: its module can't be used: unexpected end of file\nstatus 3\n" node "$clone/web/t1check.mjs" fonts/H02.pfb
gzip -d -c "$top/web/modules/t1check.wasm.gz" | head -c 100000 | gzip -c >"$clone/web/modules/t1check.wasm.gz"
(cd "$scratch/systems" && node "$clone/web/t1check.mjs" fonts/H02.pfb) >"$scratch/given" 2>&1
if [ $? -eq 3 ] && grep -q "^t1check: its module can't be used: WebAssembly.Module(): " "$scratch/given" && [ "$(wc -l <"$scratch/given")" -eq 1 ]; then
    pass
else
    fail "a module that is cut: $(cat "$scratch/given")"
fi
rm "$clone/web/modules/t1check_all.wasm.gz"
(cd "$scratch/systems" && node "$clone/web/t1check-all.mjs" fonts/H02.pfb) >"$scratch/given" 2>&1
if [ $? -eq 3 ] && grep -q "^t1check-all: its module can't be used: ENOENT" "$scratch/given"; then pass; else fail "no module: $(cat "$scratch/given")"; fi

# ---- real fonts, and what they take

for shelf in /usr/share/fonts/type1/urw-base35 /usr/share/texmf/fonts/type1/public/lm; do
    if [ ! -d "$shelf" ]; then
        echo "skipped: real fonts under node, since $shelf isn't here (Debian: fonts-urw-base35, lmodern)"
    elif "$top/bench/node.sh" "$shelf" >"$scratch/told"; then
        pass
        sed "s|^|node: ${shelf##*/}: |" "$scratch/told"
    else
        cat "$scratch/told"
        fail "bench/node.sh $shelf"
    fi
done
finish
