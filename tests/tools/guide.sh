#!/bin/sh
# Runs each command of docs/GUIDE.md, in their order, and compares what it prints with what the page shows, but for blanks at a line's beginning: by the
# programs that are built here, and by node in a clone where nothing is built, without rt.

# shellcheck source=tests/tools/common.sh
. "$(dirname "$0")/common.sh"

for need in 't1asm t1utils' '/usr/share/texmf/fonts/type1/public/lm/lmr10.pfb lmodern' \
    '/usr/share/fonts/type1/urw-base35/NimbusSans-Bold.t1 fonts-urw-base35' \
    '/usr/share/texlive/texmf-dist/fonts/type1/public/amsfonts/symbols/msbm5.pfb texlive-base' \
    '/usr/share/texlive/texmf-dist/fonts/type1/public/cmcyr/cmcitt10.pfb texlive-lang-cyrillic' \
    '/usr/share/texlive/texmf-dist/fonts/type1/public/wasy-type1/wasy8.pfb texlive-fonts-recommended'; do
    [ -e "${need% *}" ] || command -v "${need% *}" >/dev/null || {
        echo "skipped: the commands of docs/GUIDE.md, since ${need% *} isn't here (Debian: ${need#* })"
        finish
        exit
    }
done

# Runs the commands in a folder of their own, by the scripts of a repository and with the tools of a path: FOLDER REPOSITORY PATH.
run_guide() {
    mkdir "$scratch/$1"
    cd "$scratch/$1" || exit 1
    # A file for each command, 10, 11 and so on, and one for what it prints.
    awk '
        /^    \$ / { close(printed); count++; printed = 9 + count ".printed"; printf "" >printed; print substr($0, 7) >(9 + count ".sh"); next }
        /^    / && count { sub(/^[ \t]+/, ""); print >printed; next }
        { count += 0 }
    ' "$top/docs/GUIDE.md"
    before=$passed
    for command in *.sh; do
        limited env PATH="$2/bin:$3" sh "./$command" 2>&1 </dev/null | sed 's/^[ \t]*//' >printed
        if cmp -s printed "${command%.sh}.printed"; then
            pass
        else
            fail "docs/GUIDE.md, $1: another output (< on the page, > printed) of: $(cat "$command")"
            diff "${command%.sh}.printed" printed
        fi
    done
    [ "$((passed - before))" -ge 18 ] || fail "the commands of docs/GUIDE.md aren't read: $((passed - before))"
}
run_guide 'the built programs' "$top" "$PATH"

if [ "$(node -p 'process.versions.node.split(".")[0] >= 20' 2>/dev/null)" = true ]; then
    mkdir "$scratch/clone" "$scratch/tools"
    (cd "$top" && tar --exclude=./.git --exclude='./crates/*/out' --exclude=./web/out -cf - .) | (cd "$scratch/clone" && tar -xf -)
    # All tools of the path but rt, the first of a name.
    echo "$PATH" | tr ':' '\n' | while IFS= read -r folder; do
        ln -s "$folder"/* "$scratch/tools/" 2>/dev/null
    done
    rm -f "$scratch/tools/rt"
    run_guide 'a clone with node' "$scratch/clone" "$scratch/tools"
else
    echo "skipped: the commands of docs/GUIDE.md in a clone with node, since node 20 or later isn't here (Debian: nodejs)"
fi
finish
