# How the scripts in bin/ run and build their programs. Each reads this in, and sets `top`, the repository's folder, before.
# shellcheck shell=sh disable=SC2154

# Sets `program`, the file of the program of a crate, NAME, and `stamp`, which is as old as it.
name_files() {
    name=$1
    out=$top/crates/$name/out
    program=$out/$name
    stamp=$out/built
}

# Whether the program is there, and no source is newer than its stamp.
is_built() {
    [ -x "$program" ] && [ -f "$stamp" ] || return 1
    newer=$(cd "$top" && find crates.txt crates/*/src crates/*/specs crates/*/proofs -newer "$stamp" 2>/dev/null | head -n 1)
    [ -z "$newer" ]
}

# The libraries below a crate, each after those that it uses: crates.txt has them in such an order.
libraries_below() {
    awk -v name="$1" '
        { split($0, parts, ":"); split(parts[1], head, " "); crate[NR] = head[1]; uses[NR] = parts[2] }
        END {
            needed[name] = 1
            for (i = NR; i > 0; i--) if (crate[i] in needed) {
                count = split(uses[i], words, " ")
                for (j = 1; j <= count; j++) needed[words[j]] = 1
            }
            for (i = 1; i <= NR; i++) if (crate[i] in needed && crate[i] != name) print crate[i]
        }
    ' "$top/crates.txt"
}

# Whether rt has built a library of what its sources are now.
is_proved() {
    [ -f "$top/crates/$1/out/rlib/stamp" ] || return 1
    newer=$(cd "$top/crates/$1" && find ../../crates.txt src specs proofs -newer out/rlib/stamp 2>/dev/null | head -n 1)
    [ -z "$newer" ]
}

# The checksum of what the page and the modules are made of: the code of the crates, but for tests and examples, and what web/build.sh reads beside it.
sources_sum() (
    cd "$top" || exit 1
    {
        find crates/*/src -type f ! -path 'crates/*_tests/*' ! -path 'crates/t1_samples/*' ! -path 'crates/example/*'
        find web -type f ! -path 'web/out/*' ! -path 'web/modules/*' ! -name '*.mjs'
        printf '%s\n' crates.txt web/host.mjs docs/RULES.md docs/REFERENCE.md tests/draw/fonts/letter.pfb
    } | LC_ALL=C sort | tr '\n' '\0' | xargs -0 sha256sum | sha256sum | cut -d ' ' -f 1
)

# Makes the page in web/out, where a part of it is newer.
have_page() {
    newer=$(cd "$top" && find crates.txt crates/*/src crates/*/specs crates/*/proofs docs/RULES.md docs/REFERENCE.md tests/draw/fonts/letter.pfb bin/build.sh web \
        \( -path web/out -o -path web/modules -o -name 't1*.mjs' -o -name wasi.mjs \) -prune -o -type f -newer web/out/t1check.html -print 2>/dev/null | head -n 1)
    [ -f "$top/web/out/t1check.html" ] && [ -z "$newer" ] || "$top/web/build.sh" t1_web
}

# Whether the modules of the programs in web/modules are of the sources here.
are_modules_kept() {
    for module in t1check t1check_all t1draw; do
        [ -f "$top/web/modules/$module.wasm.gz" ] || return 1
    done
    [ "$(sources_sum)" = "$(cat "$top/web/modules/sources" 2>/dev/null)" ]
}

# The command of a crate.
command_of() { printf '%s\n' "$1" | sed 's/_/-/'; }

# Runs a program of the release by node, for the words of the command line: NAME WORDS... Ends the script.
run_by_node() {
    name=$1 command=$(command_of "$1")
    shift
    if ! command -v node >/dev/null || ! [ -f "$top/web/modules/$name.wasm.gz" ]; then
        echo "$command: the program isn't built, and node, which would run that of the release, isn't on the path" >&2
        echo "$command: 'bin/$command --build' builds it, with the Rattle kit; $top/docs/t1check.html checks fonts in a browser" >&2
        exit 3
    fi
    if [ -t 2 ]; then
        newer=''
        are_modules_kept || newer='; sources here are newer than it'
        echo "$command: the program isn't built, so node runs that of the release$newer (bin/$command --build builds it)" >&2
    fi
    # Node opens a closed descriptor as /dev/null, which takes and has bytes. The other way round it's of no use to the program either.
    true 2>/dev/null 3<&0 || exec 0>/dev/null
    true 2>/dev/null 3>&1 || exec 1</dev/null
    true 3>&2 2>/dev/null || exec 2</dev/null
    exec node "$top/web/$command.mjs" "$@"
}

# Shows a line, on a terminal in the place of the one before.
show_line() {
    if [ -n "$moves" ]; then
        printf '\r%s\033[K' "$1" >&2
    else
        printf '%s\n' "$1" >&2
    fi
}

# Shows how far a build is, by what rt prints: on a terminal in one line that moves, elsewhere by a line a crate. Keeps what rt prints.
show_build() {
    moves=''
    [ ! -t 2 ] || moves=yes
    show_line "$1"
    while IFS= read -r line; do
        printf '%s\n' "$line"
        case $moves$line in
            'yesso far: '*' functions checked'*)
                far=${line#so far: }
                show_line "$1, function ${far%% functions*}"
                ;;
        esac
    done >"$log"
    [ -z "$moves" ] || show_line ''
}

# Runs rt in the folder of a crate, CRATE WHAT WORDS..., and shows WHAT it does.
run_rt() {
    crate=$1 what=$2
    shift 2
    { (cd "$top/crates/$crate" && exec rt "$@") 2>&1 </dev/null && : >"$stamp.done"; } | show_build "$what"
    [ -f "$stamp.done" ] && rm -f "$stamp.done"
}

# Proves the libraries below the program, and then proves and builds the program.
build_anew() {
    libraries=$(libraries_below "$name")
    # shellcheck disable=SC2086
    set -- $libraries "$name"
    count=$# place=0 anew=''
    for library in $libraries; do
        place=$((place + 1))
        [ -z "$anew" ] && is_proved "$library" && continue
        anew=1
        run_rt "$library" "$name: proving crate $place of $count, $library" lib || return 1
    done
    run_rt "$name" "$name: proving and building crate $count of $count, $name" run -- --help
}

# Builds the program of a crate, NAME, where it isn't built, or where a source has changed since the last good build.
build() {
    name_files "$1"
    if is_built; then
        return
    fi
    if ! command -v rt >/dev/null; then
        echo "$name: the program has to be built, and 'rt', the command of the Rattle kit, isn't on the path" >&2
        echo "$name: see 'Build and test' in $top/README.md" >&2
        return 1
    fi
    mkdir -p "$out" || return 1
    log=$out/build.log
    # The stamp is as old as the build's beginning: an edit made meanwhile is newer.
    if rm -f "$stamp.done" && : >"$stamp.next" && build_anew; then
        mv "$stamp.next" "$stamp"
    else
        cat "$log" >&2
        return 1
    fi
}

# Answers a word that is alone and needs no program, and ends: `--build`, which builds the program of a crate, NAME, and `--help` and `--version`
# where that isn't built. NAME WORDS...
answer_alone() {
    name_files "$1"
    [ $# -eq 2 ] || return 0
    command=$(command_of "$name")
    case $2 in
        --build)
            build "$name" && exit
            exit 3
            ;;
        --help | -h)
            is_built && return
            cat "$top/bin/help/$command.txt" && exit
            exit 3
            ;;
        --version)
            # t1check has no such option, so the script answers it always.
            [ "$name" != t1check ] && is_built && return
            commit=''
            [ "$name" != t1check_all ] || commit=$(git -C "$top" rev-parse --short HEAD 2>/dev/null)
            version=$(sed -n 's/^pub const VERSION: &str = "\(.*\)";$/\1/p' "$top/crates/t1_forms/src/version.rt")
            printf '%s %s%s\n' "$command" "$version" "${commit:+ of commit $commit}" && exit
            exit 3
            ;;
    esac
}
