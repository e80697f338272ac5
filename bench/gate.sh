#!/bin/sh
# Measures the gate by crate: the processor seconds of its proof, of its tests and their proof, and of its must-fail edits, by single processes.
#
#   bench/gate.sh [CRATE...]
#
# Runs 'rt ci' from nothing on a copy of the repository as it is committed, or 'rt ci CRATE...', which takes these crates and those below them. It
# takes an hour or two. rt is run from a copy of its commands whose 'rattle' notes what each run takes; what the kit keeps of earlier runs isn't
# used, and stays. Prints what rt prints, and then a line for each crate, the dearest first, and the sums in minutes.
set -u
LC_ALL=C
export LC_ALL
top=$(CDPATH='' cd -P -- "$(dirname "$0")/.." && pwd -P) || exit 1

command -v rt >/dev/null || {
    echo "bench/gate.sh: 'rt', the command of the Rattle kit, isn't on the path" >&2
    exit 1
}
commands=$(dirname "$(readlink -f "$(command -v rt)")")
kit=$(dirname "$commands")
scratch=$(mktemp -d) || exit 1
trap 'rm -rf "$scratch"' EXIT
trap 'exit 1' HUP INT TERM

# The kit once more: its own copies of rt's commands look for all else beside them.
mkdir -p "$scratch/kit/bin" || exit 1
for file in "$kit"/*; do
    [ "$file" = "$commands" ] || ln -s "$file" "$scratch/kit/" || exit 1
done
for file in "$commands"/*; do
    case ${file##*/} in
        rt | rt-* | rtlib.py) cp "$file" "$scratch/kit/bin/" ;;
        rattle | __pycache__) ;;
        *) ln -s "$file" "$scratch/kit/bin/" ;;
    esac || exit 1
done
cat >"$scratch/kit/bin/rattle" <<END
#!/bin/sh
"$commands/rattle" "\$@"
status=\$?
crate='' kind=proof next=''
case \$PWD in */rt-edit-*) kind=edits ;; esac
for word in "\$@"; do
    [ "\$next" != --crate-name ] || crate=\$word
    [ "\$word" != --test ] || kind=tests
    next=\$word
done
times >"$scratch/times.\$\$"
[ -z "\$crate" ] || sed -n "2s/^\\([^ ]*\\) \\([^ ]*\\)\$/\$crate \$kind \\1 \\2/p" "$scratch/times.\$\$" >>"$scratch/log"
rm -f "$scratch/times.\$\$"
exit \$status
END
chmod +x "$scratch/kit/bin/rattle"

git clone -q "$top" "$scratch/clone" || exit 1
: >"$scratch/log"
(cd "$scratch/clone" && RT_JOBS=${RT_JOBS:-$(nproc)} "$scratch/kit/bin/rt" ci "$@")
status=$?

# Minutes and seconds, as `2m3.45s`, in seconds.
awk '
    function seconds(text, parts) { split(text, parts, "m"); return parts[1] * 60 + substr(parts[2], 1, length(parts[2]) - 1) }
    { spent[$1, $2] += seconds($3) + seconds($4); crates[$1] }
    END {
        for (crate in crates) printf "%d %s %d %d %d\n", spent[crate, "proof"] + spent[crate, "tests"] + spent[crate, "edits"], crate,
            spent[crate, "proof"], spent[crate, "tests"], spent[crate, "edits"]
    }
' "$scratch/log" | sort -k1,1nr -k2,2 | awk '
    NR == 1 { printf "%-20s %8s %8s %8s %8s\n", "seconds", "proof", "tests", "edits", "sum" }
    { printf "%-20s %8d %8d %8d %8d\n", $2, $3, $4, $5, $1; proof += $3; tests += $4; edits += $5 }
    END { printf "%-20s %8d %8d %8d %8d\n", "all, in minutes", proof / 60, tests / 60, edits / 60, (proof + tests + edits) / 60 }
'
exit "$status"
