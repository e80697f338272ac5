# Completions of t1check, t1check-all, t1draw and t1explain for bash.

# Takes the lines of standard input as what the word can be.
_t1check_take() {
    local line
    while IFS= read -r line; do
        COMPREPLY+=("$line")
    done
}

# The codes that t1explain lists; it stands beside a tool that is named by its path.
_t1check_codes() {
    "${1%t1*}t1explain" 2>/dev/null | sed 's/ .*//'
}

# The rules behind the last comma of a word: codes and their letters.
_t1check_rules() {
    local codes
    codes=$(_t1check_codes "$1" | sed '/^E/d; p; s/[0-9]*$//' | sort -u)
    compopt -o nospace 2>/dev/null
    _t1check_take < <(compgen -P "${2%"${2##*,}"}" -W "$codes" -- "$(tr '[:lower:]' '[:upper:]' <<<"${2##*,}")")
}

_t1check_fonts() {
    compopt -o filenames 2>/dev/null
    _t1check_take < <(
        compgen -f -X '!*.[Pp][Ff][AaBb]' -- "$1"
        compgen -f -X '!*.[Tt]1' -- "$1"
        compgen -d -- "$1"
    )
}

_t1check() {
    local options tool=${1##*/} word=${COMP_WORDS[COMP_CWORD]} before=${COMP_WORDS[COMP_CWORD - 1]}
    COMPREPLY=()
    # A `=` is a word of its own.
    if [ "$word" = '=' ]; then
        word=''
    elif [ "$before" = '=' ]; then
        before=${COMP_WORDS[COMP_CWORD - 2]}
    fi
    case $tool in
        t1check) options='--after --max --trace --edition --waive --help' ;;
        t1check-all)
            options='-q --edition --only --except --level --fail-on --no-waivers --write-waivers --force --baseline
                --update-baseline --files-from --exclude --shard --format --docs --clean --columns --colour --long
                --reasons --no-reasons --no-settings --explain --help --version'
            ;;
        t1draw) options='--edition --waive --step --fault --faulty -o --help' ;;
        *) options=--help ;;
    esac
    case $tool$before in
        t1check--after | t1check--max | t1check--trace | t1check--waive | t1draw--waive | t1draw--step | t1draw--fault) ;;
        t1check-all--baseline | t1check-all--files-from | t1check-all--exclude | t1draw-o) ;;
        t1check-all--shard | t1check-all--docs | t1check-all--columns) ;;
        t1check--edition | t1check-all--edition | t1draw--edition) _t1check_take < <(compgen -W '1 2 3 4' -- "$word") ;;
        t1check-all--only | t1check-all--except) _t1check_rules "$1" "$word" ;;
        t1check-all--level | t1check-all--fail-on) _t1check_take < <(compgen -W 'must should tidy' -- "$word") ;;
        t1check-all--format) _t1check_take < <(compgen -W 'jsonl sarif github junit' -- "$word") ;;
        *)
            # With --explain words are codes, as those of t1explain.
            [[ " ${COMP_WORDS[*]} " != *' --explain '* ]] || tool=t1explain
            case $tool$word in
                "$tool"-*) _t1check_take < <(compgen -W "$options" -- "$word") ;;
                t1explain*) _t1check_take < <(compgen -W "$(_t1check_codes "$1")" -- "$(tr '[:lower:]' '[:upper:]' <<<"$word")") ;;
                *) _t1check_fonts "$word" ;;
            esac
            ;;
    esac
}

# Where nothing fits, files are.
complete -o default -F _t1check t1check t1check-all t1draw t1explain
