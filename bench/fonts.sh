# shellcheck shell=bash disable=SC2154
# Gets the fonts of bench/beside_designers/fonts. A script that reads this in sets `top` and `work`, a folder, and has a function `fail`.

# Fetches the packages, 75 MB, and takes them apart in a folder. The fonts of cm-super are packed once more.
fetch_fonts() {
    mkdir -p "$work/packages" "$1"
    (
        cd "$work/packages" || exit 1
        # shellcheck disable=SC2046
        apt-get download pfb2t1c2pfb $(sed -n '/^#/!s/ .*//p' "$top/bench/beside_designers/fonts" | sort -u) >"$work/log" 2>&1 || exit 1
        for package in *.deb; do
            dpkg -x "$package" "$1" || exit 1
        done
        cd "$1/usr/share/texmf/fonts/type1/public/cm-super" || exit 1
        "$1/usr/bin/t1c2pfb" <"$1/usr/share/cm-super/cm-super.t1c" >"$work/log" 2>&1
    ) || fail "the packages can't be had: $(cat "$work/log")"
}

# Writes the fonts' names to the file `names`, after a look at what they are.
list_fonts() {
    sed -n '/^#/!s/^\([^ ]*\) \([^ ]*\) \(.*\)$/\2  \3/p' "$top/bench/beside_designers/fonts" >"$work/sums"
    (cd "$1" && sha256sum --quiet -c "$work/sums" >"$work/log" 2>&1) || fail "below $1 are other fonts: $(head -n 1 "$work/log")"
    sed 's/^[^ ]*  //' "$work/sums" >"$work/names"
}
