#!/bin/sh
# Tries the page in web/: builds it and its module, compares the module with the built programs in node, and drives the page in Chromium. Names
# what fails, and what is skipped where node, Chromium or wasm-opt (Debian: nodejs, chromium, binaryen) isn't installed; the last line counts
# passed and failed.
#
# tests/web/module.mjs compares the module, page.mjs drives the page by chromium.mjs; fonts.mjs makes fonts that are too large for tests/.
set -u
LC_ALL=C
export LC_ALL

top=$(CDPATH='' cd -P -- "$(dirname "$0")/.." && pwd -P) || exit 1
made=$top/web/out
scratch=$(mktemp -d) || exit 1
trap 'rm -rf "$scratch"' EXIT
trap 'exit 1' HUP INT TERM
passed=0
failed=0

pass() {
    passed=$((passed + 1))
}

fail() {
    failed=$((failed + 1))
    printf 'failed: %s\n' "$1"
}

finish() {
    printf '%d passed, %d failed\n' "$passed" "$failed"
    [ "$failed" -eq 0 ]
    exit
}

has() {
    command -v "$1" >/dev/null
}

# Runs a script of tests/web, shows what it prints but for its counts, and adds these up: SCRIPT WORDS... Where they don't go with its status,
# it was ended before.
run() {
    script=$1
    shift
    { timeout -k 5 600 node "$top/tests/web/$script" "$@" 2>&1; echo $? >"$scratch/status"; } |
        tee "$scratch/printed" | sed '/^[0-9][0-9]* passed, [0-9][0-9]* failed$/d'
    status=$(cat "$scratch/status")
    counts=$(sed -n '$s/^\([0-9][0-9]*\) passed, \([0-9][0-9]*\) failed$/\1 \2/p' "$scratch/printed")
    case "$status $counts" in
        '0 '*' 0' | '1 '*' '[1-9]*) ;;
        *)
            fail "tests/web/$script ended with status $status, its counts are '$counts'"
            return
            ;;
    esac
    passed=$((passed + ${counts% *}))
    failed=$((failed + ${counts#* }))
}

for tool in t1check t1check-all t1draw; do
    "$top/bin/$tool" --build || {
        fail "bin/$tool --build"
        finish
    }
done
if "$top/web/build.sh" t1_web >"$scratch/built" 2>&1; then
    pass
else
    cat "$scratch/built"
    fail 'web/build.sh'
    finish
fi

# The page is whole: no part of it is still to be put in, and none ends the element that holds it.
if grep -q '^{{' "$made/t1check.html"; then fail 'the page lacks a part'; else pass; fi
if [ "$(grep -c '</script>' "$made/t1check.html")" -eq 5 ]; then pass; else fail 'a part of the page ends its element'; fi

has wasm-opt || echo "skipped: a module whose memory has 32 bits, since wasm-opt isn't here (Debian: binaryen)"
if ! has node; then
    echo "skipped: the module and the page, since node isn't here (Debian: nodejs)"
    finish
fi
if node -e 'new WebAssembly.Module(fs.readFileSync(process.argv[1]))' "$made/t1_web.wasm" 2>/dev/null; then
    mkdir "$scratch/files"
    run module.mjs "$made/t1_web.wasm" "$scratch/files"
elif has wasm-opt; then
    fail "node can't compile the module"
else
    echo "skipped: the module beside the programs, since this node has no 64-bit memory and wasm-opt isn't here (Debian: binaryen)"
fi

# The page of the repository is the one that is made here, or its module answers as the programs do.
kept=$top/docs/t1check.html
if [ ! -f "$kept" ]; then
    fail 'docs/t1check.html is not there: run bin/release'
elif cmp -s "$kept" "$made/t1check.html"; then
    pass
else
    echo 'docs/t1check.html is not the page that these sources and tools make: bin/release makes it'
    sed -n '/^<script [^>]*id="module">$/{n;p;}' "$kept" | base64 -d | gzip -d >"$scratch/kept.wasm"
    before=$failed
    mkdir -p "$scratch/kept"
    run module.mjs "$scratch/kept.wasm" "$scratch/kept"
    [ "$failed" -eq "$before" ] || echo 'failed: docs/t1check.html is older than the sources: run bin/release'
fi
if has chromium || has chromium-browser || has google-chrome; then
    mkdir "$scratch/downloads"
    run page.mjs "$made/t1check.html" "$scratch/downloads"
else
    echo "skipped: the page, since Chromium isn't here (Debian: chromium)"
fi
finish
