#!/bin/sh
# What the scripts of tests/tools share, each of which reads this in first: how an answer is compared and counted, a time limit, made fonts,
# a script in the place of t1check-all's program, a parser of JSON, and a folder to install into. They are then in a folder of their own,
# $scratch; the last line of each is `finish`.
# shellcheck disable=SC2034
set -u
LC_ALL=C
export LC_ALL

top=$(CDPATH='' cd -P -- "$(dirname "$0")/../.." && pwd -P) || exit 1
fonts=$top/tests/program/fonts
all=$top/bin/t1check-all
explain=$top/bin/t1explain
# Status 3 makes tests/tools.sh stop: without the programs no script here can try anything. There is no time limit, since this may build.
for tool in t1check t1check-all t1draw; do
    if ! "$top/bin/$tool" --build; then
        echo "failed: bin/$tool --build"
        echo "0 passed, 1 failed"
        exit 3
    fi
done
scratch=$(mktemp -d) || exit 1
trap 'rm -rf "$scratch"' EXIT
trap 'exit 1' HUP INT TERM
passed=0
failed=0

pass() {
    passed=$((passed + 1))
}

fail() {
    failed=$((failed + 1))
    printf 'failed: %s\n' "$1"
}

# Runs a command for 60 seconds at most, so that one that hangs fails its test and the next ones run.
limited() {
    timeout -k 5 60 "$@"
}

# The answer that is wanted, on standard input: the output, and after a line `--` the standard error.
wanted() {
    cat >"$scratch/wanted"
}

# Compares what a command answers with what was wanted last, and its status: NAME STATUS COMMAND...
try() {
    name=$1 status=$2
    shift 2
    sed '/^--$/,$d' >"$scratch/out.wanted" <"$scratch/wanted"
    awk 'behind { print } /^--$/ { behind = 1 }' >"$scratch/err.wanted" <"$scratch/wanted"
    limited "$@" >"$scratch/out" 2>"$scratch/err" </dev/null
    given=$?
    for text in out err; do
        if ! cmp -s "$scratch/$text.wanted" "$scratch/$text"; then
            fail "$name: another $text (< wanted, > given)"
            diff "$scratch/$text.wanted" "$scratch/$text"
            return
        fi
    done
    if [ "$given" -ne "$status" ]; then
        fail "$name: status $given, wanted $status"
    else
        pass
    fi
}

# Tells the counts, and answers whether nothing failed.
finish() {
    printf '%d passed, %d failed\n' "$passed" "$failed"
    [ "$failed" -eq 0 ]
}

# A folder of fonts with names that are hard to handle.
odd=$scratch/odd
mkdir -p "$odd/-dash" "$odd/sub folder/deep" "$odd/empty"
cp "$fonts/H02.pfb" "$odd/-dash/-x.pfb"
cp "$fonts/K02.pfb" "$odd/a=b.t1"
cp "$fonts/F01.pfb" "$odd/back\\slash.pfb"
cp "$fonts/E03.bin" "$odd/cut.pfa"
cp "$fonts/H02.pfb" "$odd/q'\"uote.PFB"
cp "$fonts/Z05.pfb" "$odd/sub folder/deep/two words.pfb"
cp "$fonts/Z05.pfb" "$odd/not-a-font.txt"
ln -s "sub folder" "$odd/link"

# A folder with a font whose name has a line end.
lines=$scratch/lines
mkdir "$lines"
cp "$fonts/Z05.pfb" "$lines/$(printf 'two\nlines.pfb')"
cp "$fonts/Z05.pfb" "$lines/one.pfb"

# A folder with a font whose name isn't UTF-8.
bytes=$scratch/bytes
mkdir "$bytes"
cp "$fonts/Z05.pfb" "$bytes/$(printf 'b\377d.pfb')"
cp "$fonts/Z05.pfb" "$bytes/one.pfb"

# A font with lines of its dictionaries and of its glyphs, and one with a line of a glyph.
cp "$fonts/zones_and_glyphs.pfb" "$scratch/glyphs.pfb"
cp "$fonts/H02.pfb" "$scratch/edge.pfb"

# Makes a copy of t1check-all, $stand/bin/t1check-all, that runs a script in the place of its program. The script is on standard input here,
# and gets the words that the program would; $checker is the program itself.
stand_in() {
    stand=$scratch/stand
    mkdir -p "$stand/bin" "$stand/libexec/t1check"
    cp "$all" "$stand/bin/"
    cat >"$stand/libexec/t1check/t1check_all"
    chmod +x "$stand/libexec/t1check/t1check_all"
}
checker=$top/crates/t1check_all/out/t1check_all
export checker

# Makes a font, $1, a PFA. Each line of standard input is a glyph's name, a blank and the number of its faults: of closepaths without a path,
# which are P03.
make_font() {
    awk -f "$top/tests/eexec.awk" -f "$top/tests/tools/closepaths.awk" >"$1"
}

# Programs that print what a parser reads in a file of JSON: a line a value, the way to it and the value. With `lines` each line is
# read by itself.
cat >"$scratch/read.python3" <<'END'
import json, sys

def unique(pairs):
    read = dict(pairs)
    if len(read) < len(pairs):
        raise ValueError("a key stands twice")
    return read

def show(value, way):
    if value and isinstance(value, (dict, list)):
        for key, inner in value.items() if isinstance(value, dict) else enumerate(value):
            show(inner, way + "." + str(key))
    else:
        sys.stdout.buffer.write((way + " " + json.dumps(value, ensure_ascii=False) + "\n").encode())

text = open(sys.argv[1], "rb").read().decode()
for number, part in enumerate(text.split("\n")[:-1] if sys.argv[2:] else [text]):
    show(json.loads(part, object_pairs_hook=unique), str(number) if sys.argv[2:] else "")
END
cat >"$scratch/read.node" <<'END'
const [file, lines] = process.argv.slice(2)
const show = (value, way) => {
    if (value && typeof value === "object" && Object.keys(value).length > 0)
        for (const key of Object.keys(value)) show(value[key], way + "." + key)
    else console.log(way + " " + JSON.stringify(value))
}
const text = new TextDecoder("utf-8", { fatal: true }).decode(require("fs").readFileSync(file))
const parts = lines ? text.split("\n").slice(0, -1) : [text]
parts.forEach((part, number) => show(JSON.parse(part), lines ? String(number) : ""))
END

# Takes one whose parser runs. Without one forms are compared as texts alone.
reader=''
find_reader() {
    if [ "$(python3 -c 'print(3)' 2>/dev/null)" = 3 ]; then
        reader=python3
    elif [ "$(node -e 'console.log(3)' 2>/dev/null)" = 3 ]; then
        reader=node
    else
        echo "skipped: ${0##*/}: JSON read by a parser, since neither python3 nor node runs here (Debian: python3, nodejs)"
        return
    fi
    mv "$scratch/read.$reader" "$scratch/read"
}

# Runs a command, and prints what its document of SARIF says: version, program, whether all was checked, how many fonts were not,
# and whether there is a list of results; then rule and level of each result. It is `misplaced` where its index is another rule's,
# `unmarked` where it has no fingerprint of its own, `unplaced` without a text and a file.
cat >"$scratch/digest.awk" <<'DIGEST'
{
    value = substr($0, length($1) + 2)
    gsub(/^"|"$/, "", value)
    count = split($1, way, ".")
}
$1 == ".version" { version = value }
$1 ~ /^\.runs\.[1-9]/ { version = "several runs of " version }
$1 == ".runs.0.tool.driver.name" { name = value }
$1 ~ /^\.runs\.0\.tool\.driver\.rules\.[0-9]+\.id$/ { rule[way[7]] = value }
$1 == ".runs.0.results" && value == "[]" { listed = 1 }
$1 ~ /^\.runs\.0\.results\.[0-9]/ { listed = 1 }
$1 ~ /^\.runs\.0\.results\.[0-9]+\.ruleId$/ { id[results++] = value }
$1 ~ /^\.runs\.0\.results\.[0-9]+\.ruleIndex$/ { place[way[5]] = value }
$1 ~ /^\.runs\.0\.results\.[0-9]+\.level$/ { level[way[5]] = value }
$1 ~ /^\.runs\.0\.results\.[0-9]+\.partialFingerprints\.t1check\/v1$/ { mark[way[5]] = value }
$1 ~ /^\.runs\.0\.results\.[0-9]+\.locations\.0\.physicalLocation\.artifactLocation\.uri$/ { file[way[5]] = value }
$1 ~ /^\.runs\.0\.results\.[0-9]+\.message\.text$/ { text[way[5]] = value }
$1 == ".runs.0.invocations.0.executionSuccessful" { successful = value }
$1 ~ /^\.runs\.0\.invocations\.0\.toolExecutionNotifications\.[0-9]+\.message\.text$/ { unchecked++ }
END {
    print version, name, successful, unchecked + 0, (listed ? "listed" : "no list")
    for (i = 0; i < results; i++) {
        line = id[i] " " level[i]
        if (!(i in place) || rule[place[i]] != id[i]) line = line " misplaced"
        if (mark[i] == "" || seen[mark[i]]++) line = line " unmarked"
        if (file[i] == "" || text[i] == "") line = line " unplaced"
        print line
    }
}
DIGEST
cat >"$scratch/digest" <<'END'
scratch=$1 reader=$2
shift 2
"$@" >"$scratch/document"
status=$?
"$reader" "$scratch/read" "$scratch/document" >"$scratch/values" && awk -f "$scratch/digest.awk" <"$scratch/values"
exit "$status"
END

# As try, of such a document: NAME STATUS COMMAND...
try_document() {
    try_name=$1 try_status=$2
    shift 2
    [ -z "$reader" ] || try "$try_name" "$try_status" sh "$scratch/digest" "$scratch" "$reader" "$@"
}

# A folder to install into, whose name has to be quoted; and a home in the place of the user's, so that nothing there is used.
prefix="$scratch/in stalled/it's"
leave_home() {
    unset DESTDIR LOOKS XDG_DATA_HOME XDG_DATA_DIRS
    HOME=$scratch/home
    export HOME
    mkdir "$HOME"
}

install_all() {
    leave_home
    limited "$top/bin/install" --prefix "$prefix" >/dev/null || exit 1
}

# The options that the --help of an installed tool lists.
options() {
    limited "$prefix/bin/$1" --help | awk '/^ *-/ {
        sub(/^ */, "")
        sub(/  .*/, "")
        count = split($0, words, /[ ,]+/)
        for (i = 1; i <= count; i++) {
            # An option that may be given again ends with three points.
            sub(/\.\.\.$/, "", words[i])
            if (words[i] ~ /^-/ && words[i] != "-h") print words[i]
        }
    }' | sort
}

cd "$scratch" || exit 1
