#!/bin/sh
# Runs the built program on the cases of tests/program, and compares each run's status, standard output
# and standard error with what the case wants. Names the cases that fail; the last line counts both.
# Read in by tests/draw.sh it does the same with t1draw and the cases of tests/draw.
#
# A case is a file of lines `KEY: VALUE`, and runs in the folder fonts beside it, for 60 seconds at most:
#   word: WORD      one more word of the command line; \0NNN in it is a byte, in octal
#   waivers: TEXT   the last words are --waive and a file of this text; \n, \r, \t and \0NNN in it are bytes.
#                   Where there is more than one such line, each is tried in a run of its own
#   empty: N        N empty lines are before that text
#   same: WORDS     one more run, in which these words follow all others, is wanted to answer the same
#   unused: N       one more run, with a waiver of a glyph that no font has, gives one more line, numbered N
#   input: NAME     standard input: a file, or `closed`; without this line nothing is on it
#   rest: LINE      one more line that has to be left on standard input after the run
#   output: WHERE   standard output: `full` (a device that takes no byte) or `closed`; else it is compared
#   errors: WHERE   the same of standard error
#   memory: N       the run gets N kilobytes of address space; `least`: as many as the program needs to begin at all
#   status: N       the wanted status
#   out: LINE       one more wanted line of standard output
#   picture: NAME   the file beside the case that standard output has to be, byte for byte
#   folder: NAME    two more words are -o and a folder, which isn't there before; the folder beside the case that it has to be, or `none`: it isn't
#                   there after the run either
#   drawn: FILE NAME    a file of that folder that has to be the picture of this glyph, as a run without --faulty writes it
#   kept: NAME      the folder is there before, with a file of this name, which stays as it is
#   has: LINE       a line that standard output has to have; it may have others
#   hasnot: LINE    a line that it must not have
#   count: N        how many lines it has to have, where there are `has` lines
#   err: LINE       one more wanted line of standard error
set -u
LC_ALL=C
export LC_ALL

top=$(CDPATH='' cd -P -- "$(dirname "$0")/.." && pwd -P) || exit 1
case ${0##*/} in
    draw.sh) name=t1draw cases=$top/tests/draw ;;
    *) name=t1check cases=$top/tests/program ;;
esac
program=$top/crates/$name/out/$name
exec </dev/null

# The lines of a case with this key, without the key.
lines() {
    sed -n "s/^$1: \{0,1\}//p" "$2"
}

# The kilobytes of address space with which the program begins: with fewer the system can't load it.
least_memory() {
    kilobytes=1024
    while [ "$kilobytes" -lt 65536 ]; do
        (
            ulimit -v "$kilobytes" && exec "$program" --help
        ) >/dev/null 2>&1
        [ $? -lt 126 ] && break
        kilobytes=$((kilobytes + 16))
    done
    echo "$kilobytes"
}

# Makes the case's folder, with the file that stays, and adds its words.
make_folder() {
    grep -q '^folder:' "$1" || return
    rm -rf "$scratch/folder"
    printf '%s\n' -o "$scratch/folder" >>"$scratch/words"
    kept=$(lines kept "$1")
    [ -z "$kept" ] || { mkdir "$scratch/folder" && echo stays >"$scratch/folder/$kept"; }
}

# Runs the program as the case says, and answers its status: CASE [WORD..], words after the case's own.
run_program() {
    input=$(lines input "$1") output=$(lines output "$1") errors=$(lines errors "$1") memory=$(lines memory "$1")
    rm -f "$scratch/out" "$scratch/err" "$scratch/rest"
    : >"$scratch/out"
    : >"$scratch/err"
    : >"$scratch/rest"
    rest=$(lines rest "$1")
    lines word "$1" >"$scratch/words"
    make_folder "$1"
    shift
    [ $# -eq 0 ] || printf '%s\n' "$@" >>"$scratch/words"
    # The shell reports each try that can't be loaded, which is left out here.
    [ "$memory" != least ] || memory=$(exec 2>/dev/null && least_memory)
    set --
    while IFS= read -r word; do
        set -- "$@" "$(printf '%b' "$word")"
    done <"$scratch/words"
    (
        cd "$cases/fonts" || exit 99
        case $input in
            closed) exec <&- ;;
            '') exec </dev/null ;;
            *) exec <"$input" ;;
        esac
        case $output in
            closed) exec >&- ;;
            full) [ -c /dev/full ] && exec >/dev/full || exit 99 ;;
            *) exec >"$scratch/out" ;;
        esac
        # What the shell itself has to tell of a limit goes to where errors went before.
        [ -z "$memory" ] || ulimit -v "$memory" || exit 99
        case $errors in
            closed) exec 2>&- ;;
            full) [ -c /dev/full ] && exec 2>/dev/full || exit 99 ;;
            *) exec 2>"$scratch/err" ;;
        esac
        [ -n "$rest" ] || exec timeout 60 "$program" "$@"
        timeout 60 "$program" "$@"
        status=$?
        cat >"$scratch/rest"
        exit "$status"
    )
}

# Whether a text is the wanted one; where it isn't, how both differ.
is_wanted() {
    lines "$1" "$3" >"$scratch/wanted"
    cmp -s "$scratch/wanted" "$2" && return 0
    echo "failed: $(basename "$3" .case): '$1' differs (< wanted, > given)"
    diff "$scratch/wanted" "$2"
    return 1
}

# Whether the output is the picture that the case names.
is_picture() {
    picture=$cases/$(lines picture "$1")
    cmp -s "$picture" "$scratch/out" && return 0
    echo "failed: $(basename "$1" .case): another picture (< wanted, > given)"
    diff "$picture" "$scratch/out"
    return 1
}

# Whether pictures in the folder are those of their glyphs, with the case's further words. These are then taken out of it.
are_drawn() {
    tried=$1 font=$(lines word "$1" | tail -n 1)
    lines drawn "$1" >"$scratch/drawn"
    shift
    while IFS=' ' read -r file glyph; do
        (cd "$cases/fonts" && timeout 60 "$program" "$@" "$glyph" "$font") >"$scratch/picture"
        if ! cmp -s "$scratch/picture" "$scratch/folder/$file"; then
            echo "failed: $(basename "$tried" .case): '$file' isn't the picture of '$glyph'"
            return 1
        fi
        rm -f "$scratch/folder/$file"
    done <"$scratch/drawn"
}

# Whether the folder is the one that the case names, beside the file that stays: CASE [WORD..]
is_folder() {
    wanted=$(lines folder "$1") kept=$(lines kept "$1")
    [ -n "$wanted" ] || return 0
    if [ "$wanted" = none ]; then
        [ -e "$scratch/folder" ] || return 0
        echo "failed: $(basename "$1" .case): the folder is made"
        return 1
    fi
    if [ -n "$kept" ] && [ "$(cat "$scratch/folder/$kept")" != stays ]; then
        echo "failed: $(basename "$1" .case): the file '$kept' didn't stay"
        return 1
    fi
    [ -z "$kept" ] || rm -f "$scratch/folder/$kept"
    are_drawn "$@" || return 1
    diff -r "$cases/$wanted" "$scratch/folder" && return 0
    echo "failed: $(basename "$1" .case): another folder (< wanted, > given)"
    return 1
}

# Whether each line that the output has to have is in it, none that it must not have, and as many as wanted.
has_lines() {
    lines has "$1" >"$scratch/lines"
    while IFS= read -r line; do
        grep -Fqx -e "$line" "$scratch/out" && continue
        echo "failed: $(basename "$1" .case): the output has no line '$line'"
        return 1
    done <"$scratch/lines"
    lines hasnot "$1" >"$scratch/lines"
    while IFS= read -r line; do
        grep -Fqx -e "$line" "$scratch/out" || continue
        echo "failed: $(basename "$1" .case): the output has the line '$line'"
        return 1
    done <"$scratch/lines"
    count=$(lines count "$1") given=$(wc -l <"$scratch/out")
    [ "$given" -eq "${count:-$given}" ] && return 0
    echo "failed: $(basename "$1" .case): the output has $given lines, wanted $count"
    return 1
}

# Whether a run gives what the case wants: CASE [WORD..], words after the case's own.
answers() {
    run_program "$@"
    status=$?
    wanted=$(lines status "$1")
    if [ "$status" = 124 ]; then
        echo "failed: $(basename "$1" .case): it hangs"
        return 1
    fi
    if [ "$status" != "$wanted" ]; then
        echo "failed: $(basename "$1" .case): status $status, wanted $wanted"
        cat "$scratch/err"
        return 1
    fi
    if grep -q '^has:' "$1"; then
        has_lines "$1" || return 1
    elif grep -q '^picture:' "$1"; then
        is_picture "$1" || return 1
    else
        is_wanted out "$scratch/out" "$1" || return 1
    fi
    is_folder "$@" || return 1
    is_wanted rest "$scratch/rest" "$1" || return 1
    is_wanted err "$scratch/err" "$1"
}

# Whether a run gives what the case wants, and one more with each of its further words: CASE [WORD..]
answers_the_same() {
    answers "$@" || return 1
    lines same "$1" >"$scratch/same"
    while IFS= read -r words; do
        # shellcheck disable=SC2086
        answers "$@" $words && continue
        printf "where the last words are '%s'\n" "$words"
        return 1
    done <"$scratch/same"
}

# Whether a run with a waiver that isn't used gives that line after the others, where the case says its number.
tells_unused() {
    number=$(lines unused "$1")
    [ -n "$number" ] || return 0
    printf 'no.glyph C05\n' >"$scratch/unused"
    run_program "$1" --waive "$scratch/unused"
    status=$?
    lines out "$1" >"$scratch/wanted"
    printf '%s: waiver no.glyph C05 U01 waiver not used\n' "$number" >>"$scratch/wanted"
    [ "$status" = 1 ] && cmp -s "$scratch/wanted" "$scratch/out" && return 0
    echo "failed: $(basename "$1" .case): status $status, wanted 1, or other lines where a waiver isn't used (< wanted)"
    diff "$scratch/wanted" "$scratch/out"
    return 1
}

# Writes a file of waivers: empty lines, then a text.
write_waivers() {
    head -c "$1" /dev/zero | tr '\0' '\n'
    printf '%b' "$2"
}

# Whether each run of a case gives what it wants.
passes() {
    lines waivers "$1" >"$scratch/texts"
    if [ ! -s "$scratch/texts" ]; then
        answers_the_same "$1" && tells_unused "$1"
        return
    fi
    empty=$(lines empty "$1")
    while IFS= read -r text; do
        write_waivers "${empty:-0}" "$text" >"$scratch/waivers"
        answers_the_same "$1" --waive "$scratch/waivers" && continue
        printf "where the waivers are '%s'\n" "$text"
        return 1
    done <"$scratch/texts"
}

if ! "$top/bin/$name" --build; then
    echo "failed: bin/$name --build"
    echo "0 passed, 1 failed"
    exit 1
fi
scratch=$(mktemp -d) || exit 1
trap 'rm -rf "$scratch"' EXIT
trap 'exit 1' HUP INT TERM

passed=0
failed=0
for case in "$cases"/*.case; do
    if passes "$case"; then
        passed=$((passed + 1))
    else
        failed=$((failed + 1))
    fi
done
echo "$passed passed, $failed failed"
[ "$passed" -gt 0 ] && [ "$failed" -eq 0 ]
