#!/usr/bin/env bash
# Times t1check and, where it is installed, t1lint (Debian's lcdf-typetools) over the PFA and PFB fonts below a
# folder: ./bench/compare.sh FOLDER [N]
# Each font gets a process of its own. A first round, which isn't timed, reads every font once, looks at the
# statuses and, where GNU time is there, at the memory; then N rounds (3 where none is said) run both programs in
# turn, on the fonts and as often on a file that isn't there. The least times of a program's rounds count. 1 MB is
# 1,000,000 bytes. Processor time is that of a process and of its start; the runs on a missing file tell what the
# start alone costs.
set -u
export LC_ALL=C

usage='usage: bench/compare.sh FOLDER [N]   (FOLDER holds fonts, N is a number of rounds from 1 to 999)'
top=$(cd -P -- "$(dirname -- "$0")/.." && pwd -P) || exit 1
. "$top/bench/table.sh"
built=$top/crates/t1check/out/t1check
gnu_time=/usr/bin/time

fail() {
    printf 'compare.sh: %s\n' "$1" >&2
    exit 1
}

misused() {
    printf 'compare.sh: %s\n%s\n' "$1" "$usage" >&2
    exit 2
}

# Whether a file's first bytes are those of a PFB segment of text, or of a font's first line.
is_font() {
    local front=
    [[ -f $1 && -r $1 ]] || return 1
    IFS= read -r -d '' -n 30 front <"$1"
    case $front in
        $'\x80\x01'* | '%!PS-AdobeFont'* | '%!FontType1'* | '%!PS-Adobe-'?.?' Resource-Font'*) return 0 ;;
        *) return 1 ;;
    esac
}

# The fonts below a folder, and their size: sets `fonts` and `bytes`.
find_fonts() {
    local file
    fonts=()
    bytes=0
    shopt -s globstar nullglob dotglob
    for file in "$1"/**/*; do
        if is_font "$file"; then
            fonts+=("$file")
            bytes=$((bytes + $(stat -L -c %s -- "$file")))
        fi
    done
}

# Runs a program on every font, untimed. Sets `peak`, in KiB, 0 where GNU time isn't there, and `statuses`, how
# often each status from 0 to 2 came. Both programs keep to these; another one means that a run failed.
look() {
    local program=$1 font status told
    peak=0
    statuses=(0 0 0)
    for font in "${fonts[@]}"; do
        status=0
        if ((has_gnu_time)); then
            "$gnu_time" -f %M -o "$work/memory" "$program" "$font" >"$work/said" 2>&1 || status=$?
            mapfile -t told <"$work/memory"
            ((told[-1] <= peak)) || peak=${told[-1]}
        else
            "$program" "$font" >"$work/said" 2>&1 || status=$?
        fi
        ((status <= 2)) || fail "$program ended with status $status on $font: $(head -n 1 "$work/said")"
        ((statuses[status] += 1))
    done
}

# Sets `used`, the processor time of all processes that ended, in milliseconds.
read_used() {
    local minutes part
    times >"$work/times"
    used=0
    # The second line is of the children: 0m1.234s for the user, and the same for the system.
    while read -r part; do
        minutes=${part%%m*}
        part=${part#*m}
        part=${part%s}
        used=$((used + minutes * 60000 + 10#${part/./}))
    done < <(sed -n 2p "$work/times" | tr ' ' '\n')
}

# Runs a program once for each font, on the font itself or on a file that isn't there. Sets `took`, in
# microseconds, and `spent`, the processor time in milliseconds.
time_round() {
    local program=$1 missing=$2 font begun before
    read_used
    before=$used
    begun=${EPOCHREALTIME/./}
    for font in "${fonts[@]}"; do
        "$program" "${missing:-$font}" >/dev/null 2>&1
    done
    took=$((${EPOCHREALTIME/./} - begun))
    read_used
    spent=$((used - before))
}

# Shows thousandths as a number with three decimals.
thousandths() {
    printf '%d.%03d' $(($1 / 1000)) $(($1 % 1000))
}

# Prints a row of the table, of thousandths: what was measured, its unit, and the figure of each program.
print_row() {
    printf '%s\t%s' "$1" "$2"
    shift 2
    local figure
    for figure; do
        printf '\t%s' "$(thousandths "$figure")"
    done
    printf '\n'
}

(($# >= 1)) || misused 'no folder is named'
(($# <= 2)) || misused 'too many words'
[[ -d $1 ]] || misused "no folder $1"
rounds=${2:-3}
[[ $rounds =~ ^[1-9][0-9]{0,2}$ ]] || misused "no number of rounds: $rounds"
[[ -n ${EPOCHREALTIME:-} ]] || fail 'bash 5.0 or later is wanted'
[[ -x $built ]] || fail "t1check isn't built; bin/t1check --build builds it"
find_fonts "$(realpath -- "$1")"
((${#fonts[@]} > 0)) || fail "no PFA or PFB font below $1"

work=$(mktemp -d) || exit 1
trap 'rm -rf "$work"' EXIT
has_gnu_time=0
[[ -x $gnu_time && $("$gnu_time" --version 2>&1) == *GNU* ]] && has_gnu_time=1

names=(t1check)
programs=("$built")
if lint=$(type -P t1lint); then
    names+=(t1lint)
    programs+=("$lint")
fi

peaks=()
leasts=()
wholes=()
starts=()
for program in "${programs[@]}"; do
    look "$program"
    peaks+=("$peak")
    leasts+=(0)
    wholes+=(0)
    starts+=(0)
    [[ $program == "$built" ]] && answers=("${statuses[@]}")
done
for ((round = 1; round <= rounds; round += 1)); do
    for turn in "${!programs[@]}"; do
        time_round "${programs[turn]}" ''
        ((leasts[turn] != 0 && leasts[turn] <= took)) || leasts[turn]=$took
        ((wholes[turn] != 0 && wholes[turn] <= spent)) || wholes[turn]=$spent
        time_round "${programs[turn]}" "$work/missing"
        ((starts[turn] != 0 && starts[turn] <= spent)) || starts[turn]=$spent
    done
done

printf '%d fonts, %s MB, rounds timed: %d\n' "${#fonts[@]}" "$(thousandths $((bytes / 1000)))" "$rounds"
printf 't1check  answers: %d without a line, %d with a report, %d refused\n' "${answers[@]}"
rates=()
throughputs=()
spent_each=()
start_each=()
rest_each=()
memories=()
for turn in "${!programs[@]}"; do
    count=${#fonts[@]}
    rates+=($((count * 1000000000 / leasts[turn])))
    throughputs+=($((bytes * 1000 / leasts[turn])))
    spent_each+=($((wholes[turn] * 1000 / count)))
    start_each+=($((starts[turn] * 1000 / count)))
    rest_each+=($(((wholes[turn] - starts[turn]) * 1000 / count)))
    memories+=($((peaks[turn] * 1024 / 1000)))
    leasts[turn]=$((leasts[turn] / 1000))
done
{
    print_row 'least time' s "${leasts[@]}"
    print_row 'fonts a second' count "${rates[@]}"
    print_row 'read a second' MB "${throughputs[@]}"
    print_row 'processor time a font' ms "${spent_each[@]}"
    print_row 'of which a start takes' ms "${start_each[@]}"
    print_row 'less that start' ms "${rest_each[@]}"
    ((!has_gnu_time)) || print_row 'peak memory' MB "${memories[@]}"
} | print_table "${names[1]:-}"
((${#programs[@]} == 2)) || printf "t1lint isn't installed\n"
