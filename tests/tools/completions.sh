#!/bin/sh
# Tries what bash, fish and zsh complete, each where it is here, and that they know the options of --help.

# shellcheck source=tests/tools/common.sh
. "$(dirname "$0")/common.sh"

install_all

mkdir "$scratch/some"
cd "$scratch/some" || exit 1
: >'two words.PFA'
: >font.pfb
: >font.afm

if command -v bash >/dev/null; then
    cat >"$scratch/ask.bash" <<'END'
PATH=$1/bin:$PATH
. "$1/share/bash-completion/completions/t1check"
ask() {
    COMP_WORDS=("$@") COMP_CWORD=$(($# - 1))
    _t1check "$1" "${@: -1}" "${@: -2:1}"
    (IFS=,; echo "$*:${COMPREPLY[*]}")
}
ask t1check --ed
ask t1check --edition ''
ask t1check --edition = 2
ask t1check f
ask t1check tw
ask t1check --waive f
ask t1check-all --u
ask t1check-all --only h0
ask t1check-all --only = H02,Z1
ask t1check-all --except L
ask t1explain H0
ask "$1/bin/t1explain" H02 e0
ask t1check-all --format s
ask t1check-all --format = ''
ask t1check-all --docs f
ask t1check-all --fi
ask t1check-all --files-from f
ask t1check-all --exclude f
ask t1check-all --explain H02 e0
ask t1check-all --explain --v
ask t1draw --edition ''
ask t1draw A f
ask t1draw --step f
for tool in t1check t1check-all t1draw; do
    COMP_WORDS=("$tool" -) COMP_CWORD=1
    _t1check "$tool" - "$tool"
    printf '%s\n' "${COMPREPLY[@]}" | sort >"$tool.options"
done
END
    wanted <<END
t1check,--ed:--edition
t1check,--edition,:1,2,3,4
t1check,--edition,=,2:2
t1check,f:font.pfb
t1check,tw:two words.PFA
t1check,--waive,f:
t1check-all,--u:--update-baseline
t1check-all,--only,h0:H01,H02,H03,H04,H05,H06,H07,H08,H09
t1check-all,--only,=,H02,Z1:H02,Z10,H02,Z11,H02,Z12,H02,Z13,H02,Z14,H02,Z15,H02,Z16,H02,Z17,H02,Z18,H02,Z19
t1check-all,--except,L:L,L01
t1explain,H0:H01,H02,H03,H04,H05,H06,H07,H08,H09
$prefix/bin/t1explain,H02,e0:E01,E02,E03,E04,E05,E06,E07,E08,E09
t1check-all,--format,s:sarif
t1check-all,--format,=,:jsonl,sarif,github,junit
t1check-all,--docs,f:
t1check-all,--fi:--files-from
t1check-all,--files-from,f:
t1check-all,--exclude,f:
t1check-all,--explain,H02,e0:E01,E02,E03,E04,E05,E06,E07,E08,E09
t1check-all,--explain,--v:--version
t1draw,--edition,:1,2,3,4
t1draw,A,f:font.pfb
t1draw,--step,f:
--
END
    try 'completions of bash' 0 bash "$scratch/ask.bash" "$prefix"
    for tool in t1check t1check-all t1draw; do
        options "$tool" >"$scratch/options"
        wanted <<'END'
--
END
        try "options of $tool in bash's completions" 0 diff "$scratch/options" "$tool.options"
    done
else
    echo "skipped: completions of bash, which isn't here (Debian: bash)"
fi

if command -v fish >/dev/null; then
    ask() {
        # shellcheck disable=SC2016
        limited env PATH="$prefix/bin:$PATH" XDG_DATA_DIRS="$prefix/share:/usr/local/share:/usr/share" fish -c 'complete -C $argv[1]' "$1"
    }
    for line in 't1check --ed' 't1check --edition ' 't1check f' 't1check tw' 't1check --waive f' 't1check-all --only H02,Z1' \
        't1explain h0' 't1check-all --format ' 't1check-all f' 't1check-all --explain F02 s0' 't1draw A f'; do
        ask "$line"
    done >"$scratch/told" 2>&1
    wanted <<'END'
--edition	Check by this edition of the rule book
1	Check by this edition of the rule book
2	Check by this edition of the rule book
3	Check by this edition of the rule book
4	Check by this edition of the rule book
font.pfb
two words.PFA
font.afm
font.pfb
H02,Z10	stem snaps fall (should)
H02,Z11	standard width not among the snaps (should)
H02,Z12	no BlueValues (must)
H02,Z13	standard width is not above 0 (should)
H02,Z14	zone number is not whole (should)
H02,Z15	stem snaps equal (should)
H02,Z16	no stem snap beside a standard width (tidy)
H02,Z17	BlueScale out of range (should)
H02,Z18	BlueShift out of range (should)
H02,Z19	BlueFuzz out of range (should)
H01	stem after drawing (should)
H02	stems overlap (should)
H03	stem of zero width (should)
H04	unequal stem3 (should)
H05	stem below half a unit (should)
H06	stem beside stem3 (must)
H07	another stem3 (must)
H08	stem that nothing touches (should)
H09	stems share an edge (tidy)
github	Write lines in a form for other programs
jsonl	Write lines in a form for other programs
junit	Write lines in a form for other programs
sarif	Write lines in a form for other programs
font.pfb
S01	no such Subr (must)
S02	calls nested too deep (must)
S03	return outside a Subr (must)
S04	Subr without return (must)
font.pfb
--
END
    try 'completions of fish' 0 cat "$scratch/told"
    for tool in t1check t1check-all t1draw; do
        options "$tool" >"$scratch/options"
        ask "$tool -" | cut -f 1 | grep -vx -e -h | sort >"$scratch/completed"
        wanted <<'END'
--
END
        try "options of $tool in fish's completions" 0 diff "$scratch/options" "$scratch/completed"
    done
else
    echo "skipped: completions of fish, which isn't here (Debian: fish)"
fi

wanted <<'END'
--
END
for tool in t1check t1check-all t1draw; do
    options "$tool" >"$scratch/options"
    sed -n "/^    $tool)/,/;;/p" "$prefix/share/zsh/site-functions/_t1check" | sed '1d; s/\[.*//' | grep -o -e '-[-a-z][-a-z]*' |
        grep -vx -e -h | sort >"$scratch/completed"
    try "options of $tool in zsh's completions" 0 diff "$scratch/options" "$scratch/completed"
done

if command -v zsh >/dev/null && limited zsh -fc 'zmodload zsh/zpty' 2>/dev/null; then
    # Keys as a user types them: each Tab puts the next completion in, and control-G prints the line.
    cat >"$scratch/ask.zsh" <<'END'
zmodload zsh/zpty
zpty shell zsh -fi
zpty -w shell "PATH=${(q)1}/bin:\$PATH; fpath=(${(q)1}/share/zsh/site-functions \$fpath); cd ${(q)PWD}; autoload -Uz compinit
compinit -D -u; bindkey '^I' menu-complete; tell() { print -r -- \"\${BUFFER% }\" >>told; BUFFER= }; zle -N tell; bindkey '^G' tell
: >told"
await() {
    repeat 150; do
        [[ -e told && $(wc -l <told) -eq $1 ]] && return
        sleep 0.1
    done
}
await 0
number=0
for keys in $'t1check --ed\t' $'t1check --edition \t\t' $'t1check f\t' $'t1check tw\t' $'t1check-all --only H02,Z1\t\t' \
    $'t1check-all --except=L\t\t' $'t1explain h0\t\t\t' "${(q)1}/bin/t1explain GE"$'\t' \
    $'t1check-all --format \t\t' $'t1check-all f\t' $'t1check-all --explain F02 s\t\t' $'t1draw A f\t'; do
    zpty -w -n shell $keys$'\C-g'
    await $((++number))
done
zpty -d shell
cat told
END
    # shellcheck disable=SC2016
    wanted <<END
t1check --edition=
t1check --edition 2
t1check font.pfb
t1check two\\ words.PFA
t1check-all --only H02,Z11,
t1check-all --except=L,
t1explain H03
$(limited zsh -fc 'print -r -- ${(q)1}' zsh "$prefix")/bin/t1explain GE01
t1check-all --format jsonl
t1check-all font.pfb
t1check-all --explain F02 S02
t1draw A font.pfb
--
END
    try 'completions of zsh' 0 zsh -f "$scratch/ask.zsh" "$prefix"
else
    echo "skipped: completions of zsh, since it or its zpty isn't here (Debian: zsh)"
fi

finish
