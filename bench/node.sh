#!/bin/sh
# Compares t1check-all under node with the built program, over the fonts of a folder, byte for byte, in each form and edition, and prints processor time
# and memory of both: bench/node.sh FOLDER. Ends with 1 where an answer differs. GNU time measures, where it is there.
set -u
LC_ALL=C
export LC_ALL

top=$(CDPATH='' cd -P -- "$(dirname "$0")/.." && pwd -P) || exit 1
[ $# -eq 1 ] && [ -d "$1" ] || {
    echo 'usage: bench/node.sh FOLDER' >&2
    exit 3
}
shelf=$1
scratch=$(mktemp -d) || exit 1
trap 'rm -rf "$scratch"' EXIT
trap 'exit 1' HUP INT TERM
differs=0
timed=''
[ ! -x /usr/bin/time ] || timed='/usr/bin/time -q -a -o '

# Runs one of both with words: PLACE WORDS...
run() {
    place=$1
    shift
    case $place in
        program) set -- "$top/crates/t1check_all/out/t1check_all" "$@" ;;
        node) set -- node "$top/web/t1check-all.mjs" "$@" ;;
    esac
    # shellcheck disable=SC2086
    ${timed:+$timed "$scratch/$place.times" -f '%U %S %M'} "$@" >"$scratch/$place.out" 2>"$scratch/$place.err"
    [ "$?" -lt 4 ] || echo "ended with another status" >>"$scratch/$place.err"
}

both() {
    for by in program node; do
        cp "$scratch/known" "$scratch/$by.known"
        run "$by" --baseline "$scratch/$by.known" "$@"
        sed -i "s|$scratch/$by.known|known|g" "$scratch/$by.err"
    done
    for part in out err known; do
        cmp -s "$scratch/program.$part" "$scratch/node.$part" && continue
        echo "another $part: $*"
        differs=1
    done
}

fonts=0
for edition in 1 2 3 4; do
    : >"$scratch/known"
    for form in '' --reasons '--format jsonl' '--format sarif' '--format github' '--format junit' '--format jsonl --reasons'; do
        # shellcheck disable=SC2086
        both --edition "$edition" $form "$shelf"
    done
    both --edition "$edition" --update-baseline "$shelf"
    cp "$scratch/program.known" "$scratch/known"
    both --edition "$edition" "$shelf"
    fonts=$(sed -n 's/ fonts\{0,1\}: .*//p' "$scratch/node.err")
done
echo "$fonts fonts, 27 answers, $([ "$differs" -eq 0 ] && echo all equal || echo not all equal)"
for by in program node; do
    [ ! -f "$scratch/$by.times" ] || awk -v by="$by" '
        { seconds = $1 + $2; if (seconds > worst) worst = seconds; if ($3 > most) most = $3 }
        END { printf "%s: at most %.2f s of a processor, %.0f MB\n", by, worst, most / 1000 }' "$scratch/$by.times"
done
exit "$differs"
