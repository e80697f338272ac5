#!/bin/sh
# Prints the definitions that contracts of public functions cite: `sh tests/definitions.sh [CRATE]`, of one crate or of all.
#
# A line is `CRATE FILE WORD`, as `t1_run crates/t1_report/specs/Waivers.antt largest_waivers`: clauses of t1_run cite a word that the file defines.
#
# - Public are all functions of a program. Of a library they are those of the modules from which it exports more than a constant. One that isn't
#   exported itself may cite words of specs/Private.
# - Omitted are words of laws, of types that the code declares, and the relations of watchers and pens in specs/Private/Standing.
set -u
LC_ALL=C
export LC_ALL

top=$(CDPATH='' cd -P -- "$(dirname "$0")/.." && pwd -P) || exit 1

# The files of a crate whose public functions others call.
list_public() {
    if [ -f "$1/src/main.rt" ]; then
        printf '%s\n' "$1"/src/*.rt | grep -v '/laws.rt$\|/tests.rt$'
        return
    fi
    sed -n '/::[A-Z_]*;$/d; s/^pub use \([a-z_0-9:]*\)::.*/\1/p' "$1/src/lib.rt" | sed 's/::/\//g' | grep -v laws | sort -u | while read -r module; do
        [ -f "$1/src/$module.rt" ] && printf '%s\n' "$1/src/$module.rt"
    done
}

# The words that clauses in files of code cite, each after the file that defines it: those that such a file brings in from definitions, but for
# a function's own parameters and for fields.
list_cited() {
    awk '
        # What the library of a file exports; nothing of a program.
        function exported(file,    line, using, all) {
            sub(/\/src\/.*/, "/src/lib.rt", file)
            while ((getline line <file) > 0) {
                if (line ~ /^pub use /) using = 1
                if (using) all = all " " line
                if (line ~ /;$/) using = 0
            }
            close(file)
            return all
        }
        FNR == 1 { delete words; within = 0; exports = exported(FILENAME) }
        /^ghost use / { using = ""; bringing = 1 }
        bringing {
            using = using " " $0
            if ($0 !~ /;$/) next
            bringing = 0
            if (using !~ /use Rattle\.t1[a-z_]*\.specs\./ ||
                using ~ /specs\.(declared|Laws|Private\.Standing)\./) next
            file = using
            sub(/^.*use Rattle\./, "", file)
            sub(/\.[{].*$/, "", file)
            gsub(/\./, "/", file)
            sub(/^.*specs\.[A-Za-z.]*[{]?/, "", using)
            sub(/[}]?;$/, "", using)
            count = split(using, names, /, */)
            for (i = 1; i <= count; i++) {
                word = names[i]
                sub(/ as .*/, "", word)
                sub(/^.* as /, "", names[i])
                words[names[i]] = "crates/" file ".antt " word
            }
            next
        }
        /^pub trait / { trait = 1 }
        /^}/ { trait = 0 }
        /^ *pub fn / || trait && /^ *fn / {
            within = 1
            clause = 0
            delete own
            word = $3
            sub(/[^a-z0-9_].*/, "", word)
            inner = /^pub fn / && exports != "" && exports !~ ("[^a-z0-9_]" word "[,;} ]")
        }
        within && /^ *(requires|ensures)/ { clause = 1 }
        within && (/^ *[{]$/ || !clause && /[{]$/ || /^$/) { within = 0 }
        !within { next }
        !clause {
            count = split($0, names, /[^a-z0-9_:]+/)
            for (i = 1; i <= count; i++) if (sub(/:$/, "", names[i])) own[names[i]] = 1
            next
        }
        {
            gsub(/[.][A-Za-z_]+/, "")
            count = split($0, names, /[^A-Za-z0-9_]+/)
            for (i = 1; i <= count; i++)
                if (names[i] in words && !(names[i] in own) && !(inner && words[names[i]] ~ /\/Private\//)) print words[names[i]]
        }
    ' "$@" | sort -u
}

for crate in "$top"/crates/${1:-*}; do
    [ -d "$crate/src" ] || { echo "definitions.sh: there is no crate $1" >&2; exit 1; }
    public=$(list_public "$crate")
    # shellcheck disable=SC2086
    [ -z "$public" ] || list_cited $public | sed "s/^/${crate##*/} /"
done
