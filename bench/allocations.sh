#!/bin/sh
# Refuses allocations, the first in a first run, the second in a second, and so on, until a run has none
# left to refuse: ./bench/allocations.sh
# First in the tests of t1_seal, each a process of its own, by `rt try`, in a crate that is made of them alone.
# Then in the built program, which a library is loaded into that refuses one. Last, by the same library, in a
# program that lists a font's tokens, steps and faults; it is proved and built in a folder of its own, over what
# the crates' out folders keep of earlier proofs. Each refusal has to be told, with nothing else written, and the
# run without one has to give its own answer; else the script fails. It wants `rt`, `cc` and glibc.
set -eu
top=$(cd -P -- "$(dirname "$0")/.." && pwd -P)
cases=$top/tests/program
work=$(mktemp -d)
trap 'rm -rf "$work"' EXIT
log=$work/log
refusals=0
. "$top/bench/crates.sh"

# Shows what a run told, and why it isn't right.
fail() {
    cat "$log" >&2
    echo "allocation $1: $2" >&2
    exit 1
}

# The tests of t1_seal, as a crate of their own.
refuse_in_tests() {
    mkdir -p "$work/seal/crates/seal_tests/src"
    cp -Rp "$top/crates/t1_seal" "$work/seal/crates/"
    cp "$top/crates/t1_font_tests/src/seal.rt" "$work/seal/crates/seal_tests/src/"
    printf '#![tactic(auto)]\n\n#[cfg(test)]\nmod seal;\n' >"$work/seal/crates/seal_tests/src/lib.rt"
    grep '^t1_seal:' "$top/crates.txt" >"$work/seal/crates.txt"
    echo 'seal_tests: t1_seal' >>"$work/seal/crates.txt"
    cd "$work/seal/crates/seal_tests"
    count=1
    refused=0
    while ! rt try --test --fail-alloc "$count" >"$log" 2>&1; do
        grep -q '^tests: ' "$log" || fail "$count" "no test ran"
        failed=$(grep -c '^test .* FAILED$' "$log" || true)
        told=$(grep -cE '^ +error: (Memory|AllocError|AllocFailed \{ \.\. \})$' "$log" || true)
        if [ "$failed" -eq 0 ] || [ "$failed" -ne "$told" ]; then
            fail "$count" "a test ended otherwise than with the refusal"
        fi
        echo "t1_seal, allocation $count refused: $failed tests ended with that error"
        refused=$((refused + failed))
        count=$((count + 1))
    done
    echo "t1_seal, allocation $count: no test asks for it; $refused refusals in all, each told"
}

# Builds the library, and t1check where it isn't built.
build() {
    cc -O2 -shared -fPIC -x c -o "$work/refuse.so" "$top/bench/allocations/refuse.txt"
    "$top/bin/t1check" --build
    checker=$top/crates/t1check/out/t1check
}

# A sound font, PFB: its clear text is at byte 7, its section at 117, its trailer at 300.
pfb=$top/crates/t1check/stdin
pfa=$work/hexadecimal.pfa

# The same font as PFA, its section in digits, with line ends and blanks inside pairs.
write_pfa() {
    tail -c +7 "$pfb" | head -c 104
    digits=$(tail -c +117 "$pfb" | head -c 177 | od -An -v -tx1 | tr -d ' \n')
    behind=${digits#?????}
    printf '%s\r' "${digits%"$behind"}"
    printf '%s\n' "$behind" | fold -w 6 | paste -s -d '\n\r \t' -
    tail -c +300 "$pfb" | head -c 532
}

# Runs a program on words and a font, and refuses the allocations between two numbers: FIRST LAST FONT
# PROGRAM [WORD..].
run_refusing() {
    refused="$1 $2" font=$3
    shift 3
    status=0
    : >"$work/refused"
    LD_PRELOAD=$work/refuse.so REFUSED=$refused "$@" <"$font" >"$work/out" 2>"$log" 9>"$work/refused" || status=$?
}

# Runs a program with its next allocation refused, and tells whether it asked for so many.
refuse_next() {
    number=$((number + 1))
    run_refusing "$number" "$number" "$@"
    [ -s "$work/refused" ]
}

# Whether a run ended with the refusal alone.
is_told() {
    [ ! -s "$work/out" ] && [ "$status $(cat "$log")" = '3 t1check: out of memory' ]
}

# Whether a run gave its own answer: a status, what is written, and nothing told.
is_own() {
    [ "$status" -eq "$wanted_status" ] && cmp -s "$work/out" "$work/wanted" && [ ! -s "$log" ]
}

# Refuses each allocation of a run in turn: STATUS SPARES FONT PROGRAM [WORD..], the wanted output in a file.
# So many are asked for again, with less room, where they are refused: then the second request is refused too.
refuse_in_turn() {
    wanted_status=$1 spares=$2
    shift 2
    number=0
    while refuse_next "$@"; do
        is_told && continue
        spares=$((spares - 1))
        if [ "$spares" -lt 0 ] || ! is_own; then
            fail "$number" "the refusal is swallowed in a run of $*"
        fi
        run_refusing "$number" $((number + 1)) "$@"
        is_told || fail "$number" "two refusals are swallowed in a run of $*"
    done
    is_own || fail "$number" "no allocation was refused, and the answer is another in a run of $*"
    [ "$number" -gt 1 ] || fail "$number" "no allocation is asked for in a run of $*"
    refusals=$((refusals + number - 1))
}

# t1check on a font and words, with the status and the output of a case of tests/program. The list of the
# words is asked for again where it is refused.
refuse_in_case() {
    case=$cases/$1.case
    shift
    sed -n 's/^out: //p' "$case" >"$work/wanted"
    refuse_in_turn "$(sed -n 's/^status: //p' "$case")" 1 "$@"
    echo "t1check, $(basename "$case" .case): $((number - 1)) refusals, each told"
}

# The same with the waivers of the case.
refuse_in_waived_case() {
    printf '%b' "$(sed -n 's/^waivers: //p' "$cases/$1.case")" >"$work/waivers"
    refuse_in_case "$@" --waive "$work/waivers"
}

# t1check on a font in which it finds nothing.
refuse_in_clean() {
    : >"$work/wanted"
    refuse_in_turn 0 1 "$2" "$checker"
    echo "t1check, $1: $((number - 1)) refusals, each told"
}

# t1check on words that it explains. Some allocations it can do without: then the whole text is there all
# the same.
refuse_in_words() {
    wanted_status=0
    "$checker" "$@" >"$work/wanted" 2>"$work/told" </dev/null || wanted_status=$?
    number=0
    without=0
    while refuse_next /dev/null "$checker" "$@"; do
        is_told && continue
        is_explained || fail "$number" "neither the refusal nor the whole text is told of $*"
        without=$((without + 1))
    done
    is_explained || fail "$number" "no allocation was refused, and the text is another of $*"
    refusals=$((refusals + number - 1 - without))
    echo "t1check $*: $((number - 1 - without)) refusals told, $without done without"
}

# Whether the whole text was given.
is_explained() {
    [ "$status" -eq "$wanted_status" ] && cmp -s "$work/out" "$work/wanted" && cmp -s "$log" "$work/told"
}

refuse_in_program() {
    fonts=$cases/fonts
    write_pfa >"$pfa"
    refuse_in_clean 'a PFB font' "$pfb"
    refuse_in_clean 'a hexadecimal PFA font' "$pfa"
    refuse_in_case accented_characters "$fonts/accented_characters.pfb" "$checker"
    refuse_in_case subr_called_twice "$fonts/subr.pfb" "$checker"
    refuse_in_case F13 "$fonts/F13.pfb" "$checker"
    refuse_in_case standard_encoding "$fonts/standard_encoding.pfb" "$checker"
    refuse_in_case glyph_lines_after_one_at_most_one "$fonts/four_faults.pfb" "$checker" --after 1 --max 1
    refuse_in_case trace "$fonts/clean.pfb" "$checker" --trace A
    refuse_in_waived_case waived_one_rule_of_three "$fonts/four_faults.pfb" "$checker"
    refuse_in_waived_case waivers_not_used "$fonts/empty_glyph.pfb" "$checker"
    refuse_in_words --bogus
    refuse_in_words --help
}

# Builds the program that lists the plain form of a font.
build_plain() {
    copy_crates "$top" "$work"
    mkdir -p "$work/crates/plain/src"
    cp "$top/bench/allocations/plain.txt" "$work/crates/plain/src/main.rt"
    echo 'plain: t1_font t1_char t1_report' >>"$work/crates.txt"
    cd "$work/crates/plain"
    if ! rt run >"$log" 2>&1 <"$pfb"; then
        cat "$log" >&2
        exit 1
    fi
    plain=$work/crates/plain/out/plain
}

# The plain form of a font, which has so many: WHAT FONT TOKENS STEPS FAULTS. A charstring's end is a token too.
refuse_in_lists() {
    echo "$3 tokens, $4 steps, $5 faults" >"$work/wanted"
    refuse_in_turn 0 0 "$2" "$plain"
    echo "plain form, $1: $((number - 1)) refusals, each told"
}

refuse_in_plain_form() {
    refuse_in_lists 'a PFB font' "$pfb" 5 4 0
    refuse_in_lists 'a hexadecimal PFA font' "$pfa" 5 4 0
    refuse_in_lists 'two glyphs' "$fonts/clean.pfb" 10 8 0
    refuse_in_lists 'accented characters' "$fonts/accented_characters.pfb" 30 26 2
    refuse_in_lists 'a Subr called twice' "$fonts/subr.pfb" 14 22 4
    refuse_in_lists 'a Subr that calls itself' "$fonts/nested.pfb" 12 40 11
    refuse_in_lists 'the most steps' "$fonts/most_steps.pfb" 34 100004 0
    refuse_in_lists 'a step more' "$fonts/past_the_limit.pfb" 35 100005 1
}

refuse_in_tests
build
refuse_in_program
echo "$refusals refusals in the program, each told"
refusals=0
build_plain
refuse_in_plain_form
echo "$refusals refusals in the plain form, each told"
