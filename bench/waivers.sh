#!/usr/bin/env bash
# Checks waivers on real fonts:
# ./bench/waivers.sh [FOLDER]
# FOLDER holds PFA or PFB fonts; without it four packages of Debian are fetched and taken apart in a temporary folder
# (run apt-get update first). On 50 fonts that have lines of glyphs, in each edition:
#   the waivers of all lines of glyphs of a report leave exactly the font's own lines;
#   without one of them exactly the lines of that glyph and rule come back;
#   with one more, of a glyph without a fault or of none, exactly one line more is there, of U01.
# It fails where one of these doesn't hold.
set -u
export LC_ALL=C

usage='usage: bench/waivers.sh [FOLDER]   (FOLDER holds fonts)'
top=$(cd -P -- "$(dirname -- "$0")/.." && pwd -P) || exit 1
checker=$top/crates/t1check/out/t1check
packages=(fonts-urw-base35 lmodern tex-gyre t1-cyrillic)
most_fonts=50
most_taken=10

fail() {
    printf 'waivers.sh: %s\n' "$1" >&2
    exit 1
}

# Fetches the packages and takes them apart.
fetch() {
    mkdir -p "$work/packages"
    (
        cd "$work/packages" || exit 1
        apt-get download "${packages[@]}" >"$work/log" 2>&1 || exit 1
        for package in *.deb; do
            dpkg -x "$package" "$1" || exit 1
        done
    ) || fail "the packages can't be had: $(cat "$work/log")"
}

# The report of a font, with an option more where one is given. Fails where the status is none of a report.
report() {
    local font=$1 status=0 wanted
    shift
    "$checker" --edition "$edition" "$@" "$font" >"$work/given" 2>"$work/told" || status=$?
    wanted=0
    [[ -s $work/given ]] && wanted=1
    [[ $status == "$wanted" && ! -s $work/told ]] || fail "status $status on $font: $(cat "$work/told")"
}

# Compares the report of a font that has waivers with the wanted lines.
waived_gives() {
    report "$1" --waive "$work/font.waivers"
    cmp -s "$work/given" "$work/wanted" && return
    diff "$work/wanted" "$work/given" | head >&2
    fail "another report by edition $edition on $1: $2"
}

# The wanted lines: those of the font, and those of the glyph and the rule that a waiver names, numbered anew.
want_without() {
    waiver=$1 awk -F '[ ]' '$2 == "font" || $3 " " $6 == ENVIRON["waiver"] { sub(/^[0-9]+/, ++n); print }' \
        "$work/report" >"$work/wanted"
}

# The wanted lines: those of the font, and one of a waiver that isn't used.
want_with() {
    want_without ''
    printf '%d: waiver %s U01 waiver not used\n' $(($(wc -l <"$work/wanted") + 1)) "$1" >>"$work/wanted"
}

# One waiver more, which waives nothing.
add_one() {
    cp "$work/all.waivers" "$work/font.waivers"
    printf '%s\n' "$1" >>"$work/font.waivers"
    want_with "$1"
    waived_gives "$font" "with the waiver $1"
    added=$((added + 1))
}

# A font's waivers in an edition. They stay in the file all.waivers.
check_font() {
    font=$1
    report "$font"
    mv "$work/given" "$work/report"
    sed -n 's/^[0-9]*: glyph \([^ ]*\) [^ ]* [0-9]* \([A-Z]*[0-9]*\) .*/\1 \2/p' "$work/report" | sort -u >"$work/all.waivers"
    cp "$work/all.waivers" "$work/font.waivers"
    want_without ''
    waived_gives "$font" 'with all waivers'
    mapfile -t waivers <"$work/all.waivers"
    made=$((made + ${#waivers[@]}))
    local place step=$(((${#waivers[@]} + most_taken - 1) / most_taken))
    for ((place = 0; place < ${#waivers[@]}; place += step)); do
        grep -Fxv -e "${waivers[place]}" "$work/all.waivers" >"$work/font.waivers"
        want_without "${waivers[place]}"
        [[ -s $work/wanted ]] || fail "the waiver ${waivers[place]} is of no line on $font"
        waived_gives "$font" "without the waiver ${waivers[place]}"
        taken=$((taken + 1))
    done
    grep -q '^\.notdef ' "$work/all.waivers" || add_one '.notdef GE01'
    add_one 'no.such.glyph GE01'
}

(($# <= 1)) || fail "$usage"
[[ -x $checker ]] || fail "t1check isn't built; bin/t1check --build builds it"
work=$(mktemp -d) || exit 1
trap 'rm -rf "$work"' EXIT

folder=${1:-$work/fonts}
(($# == 1)) || fetch "$folder"
[[ -d $folder ]] || fail "no folder $folder"
folder=$(realpath -- "$folder")

# Fonts that have lines of glyphs, 50 of them where there are more, spread over the folder.
edition=1
faulty=()
while IFS= read -r -d '' font; do
    report "$font"
    grep -q '^[0-9]*: glyph ' "$work/given" && faulty+=("$font")
done < <(find "$folder" -type f \( -name '*.pf[ab]' -o -name '*.t1' \) -print0 | sort -z)
((${#faulty[@]} > 0)) || fail "no font below $folder has a line of a glyph"
chosen=()
for ((place = 0; place < most_fonts && place < ${#faulty[@]}; place += 1)); do
    chosen+=("${faulty[place * ${#faulty[@]} / (${#faulty[@]} < most_fonts ? ${#faulty[@]} : most_fonts)]}")
done

made=0 taken=0 added=0
for font in "${chosen[@]}"; do
    for edition in 1 2 3 4; do
        check_font "$font"
    done
done
printf '%d of %d fonts with lines of glyphs, by four editions: %d waivers, %d taken away, %d added\n' \
    "${#chosen[@]}" "${#faulty[@]}" "$made" "$taken" "$added"
