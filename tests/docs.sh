#!/bin/sh
# Compares the pages of docs/ and the README with the program. Names what differs; the last line counts both.
#
# - Of each example below a rule's heading in docs/RULES.md a font is made (tests/make.awk), and t1check-all reports its lines with the reasons
#   below them; of the mended example it reports nothing.
# - Each rule and each refusal has its text in its heading, and each rule in the table too; the texts of refusals are those of
#   t1_font, in code and definition. Each rule's page has its level, and the source that specs/ names. The pages of t1_pages are those of
#   docs/RULES.md.
# - What lists the editions has those of t1_char.
# - Each rule is in all places that docs/dev/ARCHITECTURE.md names for it; one that lacks rules is printed with their codes. A file that has all
#   of them is named there. Above each row in specs/ is a source.
# - tests/definitions.sh prints the words of definitions that clauses of public functions cite. Each of them is defined in the file that is printed
#   with it, and that isn't in specs/Private. Where the README's first promise rests on it, in the files that has_rows below takes, it has a row in
#   docs/dev/DEFINITIONS.md, or a rule's row in specs/ cites it. Each word of a row of the page is defined in the file that the row is of.
# - No definition rests on a word of specs/Private; there the relations of watchers and pens are in Standing, with nothing else.
# - The page names files that have so many lines as docs/dev/PROMISES.md says, rounded up to hundreds, without blank lines and comments.
# - The README's lines for an editor are lines of crates/example. web/host.mjs counts rules and refusals as they are.
# - The least node that pages and recipes name is that of web/wasi.mjs. docs/BROWSER.md says of each file of web/ what a fault in it could cause.
# - Each link between the pages leads to a file, and to a heading where it names one. Each file of bin/, crates/, docs/, tests/ and web/ that a
#   page names is there.
#
# Where t1check-all can't be built, which counts as a failure, examples aren't tried.
set -u
LC_ALL=C
export LC_ALL

top=$(CDPATH='' cd -P -- "$(dirname "$0")/.." && pwd -P) || exit 1
cases=$top/tests/program
rules=$top/docs/RULES.md

scratch=$(mktemp -d) || exit 1
trap 'rm -rf "$scratch"' EXIT
trap 'exit 1' HUP INT TERM
passed=0
failed=0

pass() {
    passed=$((passed + 1))
}

fail() {
    failed=$((failed + 1))
    printf 'failed: %s\n' "$*"
}

many_built=yes
"$top/bin/t1check-all" --build || {
    many_built=''
    fail 'bin/t1check-all --build'
}

# The examples below the rules' headings, a file of $scratch/examples each: CODE.1 and so on, and CODE.mended, which is below the word `Mended:`.
# `Several` is the code of the example of several rules. A report's lines and reasons come last.
mkdir "$scratch/examples"
awk -v folder="$scratch/examples/" '
    /^##/ {
        code = $1 == "###" && ($2 ~ /^[A-Z]+[0-9]+$/ || $2 == "Several") && $2 !~ /^E[0-9]/ ? $2 : ""
        count = is_within = is_mended = 0
        next
    }
    code == "" { next }
    /^    / {
        if (!is_within) file = folder code "." (is_mended ? "mended" : ++count)
        is_within = 1
        print substr($0, 5) >file
        next
    }
    { is_within = 0 }
    NF { is_mended = /^Mended:$/ }
' "$rules"

# Makes the font of an example and its waivers, as $scratch/run/font.pfb: what is changed in a sound font is in the file that $2 names. An
# example of a whole file, or of waivers, has those of its rule's case.
make_font() {
    rm -rf "$scratch/run"
    mkdir "$scratch/run" || exit 1
    case $1 in
        F01 | F02 | U01)
            cp "$cases/fonts/$1.pfb" "$scratch/run/font.pfb"
            sed -n 's/^waivers: //p' "$cases/$1.case" >"$scratch/waivers"
            [ ! -s "$scratch/waivers" ] || printf '%b' "$(cat "$scratch/waivers")" >"$scratch/run/font.pfb.waivers"
            return
            ;;
    esac
    # The pages on accented characters say which other glyph their fonts have.
    { [ "${1#K}" = "$1" ] || echo 'B: 7 500 hsbw endchar'; cat "$2"; } | awk -f "$top/tests/eexec.awk" -f "$top/tests/make.awk" >"$scratch/run/font.pfb"
}

# The lines of the report on that font with their reasons, by the edition that first has the rule.
report_with_reasons() {
    edition=1
    ! sed '1,/^U01$/d' "$scratch/codes" | grep -qx -e "$1" || edition=3
    ! sed '1,/^W03$/d' "$scratch/codes" | grep -qx -e "$1" || edition=4
    (cd "$scratch/run" && exec "$top/bin/t1check-all" -q --long --no-settings --reasons --edition "$edition" font.pfb </dev/null) |
        sed 's/^font\.pfb: //'
}

# What is changed in the mended font: a line of the mended example takes the place of those that begin as it does. Where the faulty font has a line of
# text, as tests/make.awk says, the mended example has what comes in its place.
merge() {
    awk '
        function label() {
            if ($0 !~ /^\/|^dup [0-9]|^[^%\/ ]+: |^Subr [0-9]|^% .* without \//) return "text"
            return $1 ($1 == "Subr" || $1 == "dup" && !/put$/ ? " " $2 : "") (/% in Private$/ ? " of Private" : "")
        }
        BEGIN { is_mended["text"] = 1 }
        !/^   / { at = label() }
        FILENAME == ARGV[1] { is_mended[at] = 1 }
        FILENAME == ARGV[2] && !(at in is_mended)
        FILENAME == ARGV[1] { mended = mended $0 "\n" }
        END { printf "%s", mended }
    ' "$1" "$2"
}

# Tries an example: t1check-all reports its lines of the faulty font, and nothing of the mended one.
try_example() {
    sed '/^[0-9][0-9]*: [fgw]/,$d' "$1" >"$scratch/changes"
    sed -n '/^[0-9][0-9]*: [fgw]/,$p' "$1" >"$scratch/lines"
    make_font "$2" "$scratch/changes"
    report_with_reasons "$2" >"$scratch/reported"
    if cmp -s "$scratch/lines" "$scratch/reported"; then
        pass
    else
        fail "docs/RULES.md: example ${1##*.} of $2 has other lines than t1check-all reports:" \
            "$(diff "$scratch/reported" "$scratch/lines" | sed -n "s/^< /without '/p; s/^> /with '/p" | sed "s/\$/'/" | tr '\n' ' ')"
    fi
    mended=$scratch/examples/$2.mended
    [ "${1##*.}" = 1 ] && [ "$2" != Several ] || return
    case $2 in
        F01 | F02 | U01) (cd "$scratch/run" && sh "$mended") ;;
        *) merge "$mended" "$scratch/changes" >"$scratch/merged" && make_font "$2" "$scratch/merged" ;;
    esac
    if [ -s "$mended" ] && [ -z "$(report_with_reasons "$2")" ]; then
        pass
    else
        fail "docs/RULES.md: the mended example of $2 isn't there, or isn't clean: $(report_with_reasons "$2" | sed -n 1p)"
    fi
}

# The rules' codes, levels and texts, as the code has them.
sed -n '/^static BOOK/,/^];$/p' "$top/crates/t1_rules/src/book.rt" | tr '\n' ' ' | sed 's/,* *),/\n/g' |
    sed -n 's/^.*Rule::\([A-Z0-9]*\), *Level::\([A-Z][a-z]*\), *"\1", *"\(.*\)"$/\1 \2 \3/p' >"$scratch/levels"
sed 's/^\([^ ]*\) [^ ]*/\1/' "$scratch/levels" >"$scratch/book"
sed -n 's/^.*=> "\(E[0-9]*\) \(.*\)",$/\1 \2/p' "$top/crates/t1_font/src/unread.rt" >"$scratch/refusals"
while read -r code text; do
    if ! grep -qxF "### $code $text" "$rules"; then
        fail "docs/RULES.md: no heading says $code $text"
    elif ! grep -qF "codes \"$code $text\"" "$top/crates/t1_font/specs/Refusals.antt"; then
        fail "crates/t1_font/specs/Refusals.antt: no refusal has the text $code $text"
    else
        pass
    fi
done <"$scratch/refusals"
last=$(sed -n 's/^last_number = \([0-9]*\)$/\1/p' "$top/crates/t1_rules/specs/Book.antt")
[ "$(wc -l <"$scratch/book")" -eq "${last:-0}" ] || fail "the book's rows aren't read: $(wc -l <"$scratch/book"), wanted $last"
[ "$(wc -l <"$scratch/refusals")" -eq 15 ] || fail "the refusals' texts aren't read: $(wc -l <"$scratch/refusals")"
# The page has room for as many counts as the module keeps.
codes=$(sed -n 's/^const CODES = \([0-9]*\) + \([0-9]*\);$/\1 \2/p' "$top/web/host.mjs")
if [ "$codes" = "$last $(wc -l <"$scratch/refusals" | tr -d ' ')" ]; then pass; else fail "web/host.mjs: rules and refusals aren't so many: $codes"; fi

# The editions that can be asked for, as t1_char has their numbers, and as words list them: `1 2 3`, and `1, 2 or 3`.
editions=$(sed -n 's/^ *\([0-9]*\) => Some(Edition::[A-Z][a-z]*),$/\1/p' "$top/crates/t1_char/src/edition.rt" | tr '\n' ' ' | sed 's/ $//')
or_editions=$(printf '%s\n' "$editions" | sed 's/ /, /g; s/, \([0-9]*\)$/ or \1/')
# A file has a text so often: FILE COUNT TEXT.
lists() {
    found=$(grep -cF -e "$3" "$top/$1")
    if [ "$found" -eq "$2" ]; then pass; else fail "$1: $3 is there $found times, wanted $2"; fi
}
lists crates/t1_run/src/arguments.rt 1 "range(1..$((${editions##* } + 1)))"
lists crates/t1_run/specs/Arguments.antt 1 "parser.Unsigned 1 ${editions##* })"
for file in crates/t1_answer/src/command_line.rt crates/t1draw/src/command_line.rt bin/help/t1check.txt bin/help/t1draw.txt; do
    lists "$file" 1 "by edition $or_editions of the rule book [default: 1]"
done
for file in crates/t1_options/src/command_line.rt bin/help/t1check-all.txt; do
    lists "$file" 1 "check by this edition of the rule book, $or_editions"
done
lists crates/t1_options/src/complaint.rt 1 "\"--edition wants $or_editions\""
lists crates/t1_options/src/settings/reading.rt 1 "\"edition wants $or_editions\""
lists man/t1check.1 1 "by edition $or_editions of the rule book"
lists man/t1check-all.1 1 "by this edition of the rule book, $or_editions;"
lists completions/_t1check 3 ":edition:($editions)'"
lists completions/t1check.bash 1 "compgen -W '$editions'"
lists completions/t1check.fish 3 "-l edition -x -a '$editions'"
lists README.md 1 "use edition $or_editions of the rules"
lists docs/RECIPES.md 1 "| \`edition\` | $or_editions |"
lists bench/waivers.sh 1 "for edition in $editions; do"
lists bench/node.sh 1 "for edition in $editions; do"
chosen=$(sed -n '/<select id="edition">/,/<\/select>/p' "$top/web/page.html" | grep -o '<option value="[0-9]*">' | tr -dc '0-9\n' | tr '\n' ' ' | sed 's/ $//')
if [ "$chosen" = "$editions" ]; then pass; else fail "web/page.html: the editions to choose are $chosen, wanted $editions"; fi

# The version of the changes and of the manual pages is that of the programs.
version=$(sed -n 's/^pub const VERSION: &str = "\(.*\)";$/\1/p' "$top/crates/t1_forms/src/version.rt")
if [ -n "$version" ] && [ "$(sed -n 's/^## //p' "$top/CHANGELOG.md" | sed -n 1p)" = "$version" ]; then
    pass
else
    fail "CHANGELOG.md: its first heading isn't the version $version"
fi
for page in "$top"/man/*.1; do
    if sed -n 1p "$page" | grep -qF " \"t1check $version\" "; then pass; else fail "${page##*/}: it isn't of version $version"; fi
done

if sh "$top/crates/t1_pages/pages.sh" | cmp -s - "$top/crates/t1_pages/src/lib.rt"; then
    pass
else
    fail 'crates/t1_pages/src/lib.rt: crates/t1_pages/pages.sh writes another one of docs/RULES.md'
fi

# The places in which each rule is.
specs=$top/crates/t1_rules/specs
drawing=$top/crates/t1_drawing
told=$top/crates/t1_report/specs/Reports.antt
tests=$top/crates/t1_report_tests/src
cut -d ' ' -f 1 "$scratch/book" >"$scratch/codes"
sort "$scratch/codes" >"$scratch/sorted"

# Compares the codes of a place, on standard input, with those of a file of $scratch, as codes or sorted.
compare_codes() {
    cat >"$scratch/place"
    if cmp -s "$scratch/$2" "$scratch/place"; then
        pass
    else
        fail "$1: not the rules of the book:" \
            "$(diff "$scratch/$2" "$scratch/place" | sed -n 's/^</without/p; s/^>/with/p' | tr '\n' ' ' | sed 's/ $//')"
    fi
}

# The codes of rules, each once, among the words of files or of standard input.
codes_in() {
    grep -ohw '[A-Z][A-Z]*[0-9][0-9]' "$@" | sort -u | grep -xF -f "$scratch/codes"
}

# The rows of the tables of specs/, each with the comment above it, in one line.
list_rows() {
    awk '/^ *(∷ )?(font_row|row|of_step|of_segments|later_row edition) [A-Z]+[0-9]+ / {
            sub(/^ *(∷ )?/, "")
            sub(/^later_row edition/, "row")
            print above
            print
        }
        !/^ *-- / { above = "" }
        /^ *-- / { sub(/^ *-- /, above == "" ? "-- " : ""); above = above (above == "" ? "" : " ") $0 }' "$specs/FontRules.antt" "$specs/StepRules.antt" "$drawing/specs/DrawingRules.antt"
}

# What says where a rule is violated: its row, and of L01 and U01 the definition that names it.
list_breaches() {
    list_rows | sed -n 's/^[a-z_]* \([A-Z]*[0-9][0-9]\) /\1 /p'
    awk '/^[a-z].* pub [a-z_]* :/ { name = $3 }
        match($0, /number_of [A-Z]+[0-9]+ == n/) { print substr($0, RSTART + 10, RLENGTH - 15), name }' "$told"
}

# The words of definitions that the rules' rows cite, each after its file, as `t1_rules/StepRules/Stems overlap_by`.
list_row_words() {
    awk -v breaches="$scratch/breaches" '
        BEGIN {
            while ((getline line <breaches) > 0) {
                count = split(line, parts, /[^A-Za-z0-9_]+/)
                for (i = 2; i <= count; i++) cited[parts[i]] = 1
            }
        }
        FNR == 1 {
            own = FILENAME
            sub(/^.*\/crates\//, "", own)
            sub(/\/specs\//, "/", own)
            sub(/\.antt$/, "", own)
        }
        /^use Rattle\.t1[a-z_]*\.specs\./ && !/specs\.declared\./ {
            file = $2
            sub(/^Rattle\./, "", file)
            sub(/\.[{].*$/, "", file)
            sub(/\.specs\./, "/", file)
            gsub(/\./, "/", file)
            sub(/^.*[{]/, "")
            sub(/[}].*$/, "")
            count = split($0, parts, /, */)
            for (i = 1; i <= count; i++) if (parts[i] in cited) print file, parts[i]
        }
        /^[a-z]+ pub [a-z_]+ :/ && $3 in cited { print own, $3 }
    ' "$specs/FontRules.antt" "$specs/StepRules.antt" "$drawing/specs/DrawingRules.antt" "$told"
}

# The rules of the contents of docs/RULES.md, with those between `C01 to C09`.
list_contents() {
    sed -n 's/^- \[.*\](#[a-z0-9-]*): \([A-Z]*[0-9][0-9]\)/\1/p' "$rules" | awk -F ', ' '{
        for (i = 1; i <= NF; i++) {
            count = split($i, ends, " to ")
            letters = ends[1]
            sub(/[0-9]*$/, "", letters)
            for (n = substr(ends[1], length(letters) + 1) + 0; n <= substr(ends[count], length(letters) + 1) + 0; n++)
                printf "%s%02d\n", letters, n
        }
    }' | grep -v '^E[0-9]'
}

# The rules whose case wants their line, of the font of their name.
list_cases() {
    while read -r code text; do
        case=$cases/$code.case
        [ -f "$cases/fonts/$code.pfb" ] && grep -qx "word: $code.pfb" "$case" &&
            sed -n 's/^out: [0-9][0-9]*: .* \([A-Z][A-Z]*[0-9][0-9] .*\)/\1/p' "$case" | grep -qxF "$code $text" && echo "$code"
    done <"$scratch/book"
}

sed -n '/^pub enum Rule {$/,/^}$/s/^    \([A-Z]*[0-9][0-9]\).*,$/\1/p' "$top/crates/t1_rules/src/rule.rt" >"$scratch/list"
compare_codes crates/t1_rules/src/rule.rt codes <"$scratch/list"
sed -n 's/^entry_of \([A-Z]*[0-9][0-9]\) = .*/\1/p' "$specs/Book.antt" >"$scratch/list"
compare_codes 'crates/t1_rules/specs/Book.antt, entry_of' codes <"$scratch/list"
sed -n '/^rules =$/,/\[\]$/p' "$specs/Book.antt" | grep -o '[A-Z]*[0-9][0-9]' >"$scratch/list"
compare_codes 'crates/t1_rules/specs/Book.antt, rules' codes <"$scratch/list"
list_breaches >"$scratch/breaches"
cut -d ' ' -f 1 "$scratch/breaches" | sort >"$scratch/list"
compare_codes 'crates/t1_rules/specs: FontRules.antt, StepRules.antt; crates/t1_drawing/specs/DrawingRules.antt; crates/t1_report/specs/Reports.antt' sorted <"$scratch/list"
# A rule's page: what is below its heading.
page_of() {
    awk -v code="$1" '/^##/ { within = $1 == "###" && $2 == code; next } within' "$rules"
}

# Each rule is in the table, its page has its level and the source that is above its row, and its examples are as they say.
{
    list_rows | sed -n '/^ *-- /{
        s/^.*\(Type 1 Font Format, chapter [0-9]*\|Technical Note [0-9]*\|Technical Note [0-9]*, section [0-9.]*[0-9]\|Own\)\.$/\1/
        s/Font Format/Format/
        s/^Own$/our own rule/
        h
        n
        s/^[a-z_]* \([A-Z]*[0-9][0-9]\) .*/\1/
        G
        s/\n/ /p
    }'
    printf '%s our own rule\n' L01 U01
} >"$scratch/sources"
while read -r code level text; do
    level=$(printf '%s' "$level" | tr '[:upper:]' '[:lower:]')
    source=$(sed -n "s/^$code //p" "$scratch/sources")
    if ! grep -qF "| $code | $text | $level |" "$rules"; then
        fail "docs/RULES.md: no row of the table says $code $text, $level"
    elif ! grep -qxF "### $code $text" "$rules"; then
        fail "docs/RULES.md: no heading says $code $text"
    elif ! page_of "$code" | sed -n 2p | grep -q "^Level \*$level\*\( ($source)\)\{0,1\}: "; then
        fail "docs/RULES.md: the page of $code doesn't begin with its level, $level"
    elif ! page_of "$code" | grep -q "^Level [^:]* ($source): \|^Source: $source\.$"; then
        fail "docs/RULES.md: the page of $code doesn't name its source, $source"
    elif [ ! -s "$scratch/examples/$code.1" ]; then
        fail "docs/RULES.md: $code has no example"
    else
        pass
    fi
done <"$scratch/levels"
[ -z "$many_built" ] || for example in "$scratch"/examples/*.[1-9]; do
    code=${example##*/}
    try_example "$example" "${code%.*}"
done
grep -oh 'Rule::[A-Z]*[0-9][0-9]' "$top"/crates/t1_rules/src/font_rules/*.rt "$top"/crates/t1_rules/src/step_rules/*.rt \
    "$drawing"/src/*.rt "$top/crates/t1_rules/src/sidebearings.rt" "$top/crates/t1_report/src/violations.rt" "$top/crates/t1_report/src/usage.rt" |
    sed 's/^Rule:://' | sort -u >"$scratch/list"
compare_codes 'the code in crates/t1_rules/src, crates/t1_drawing/src and crates/t1_report/src' sorted <"$scratch/list"
find "$tests" -name '*.rt' ! -name book.rt ! -name mask.rt ! -name faults.rt -exec cat {} + | codes_in >"$scratch/list"
compare_codes 'the tests in crates/t1_report_tests/src' sorted <"$scratch/list"
sed -n 's/^| \([A-Z]*[0-9][0-9]\) | .* | .* | .* | .* |$/\1/p' "$rules" >"$scratch/list"
compare_codes 'docs/RULES.md, the table' codes <"$scratch/list"
sed -n 's/^### \([A-Z]*[0-9][0-9]\) .*/\1/p' "$rules" | grep -v '^E[0-9]' >"$scratch/list"
compare_codes 'docs/RULES.md, the headings' codes <"$scratch/list"
list_contents >"$scratch/list"
compare_codes 'docs/RULES.md, the contents' codes <"$scratch/list"
sed -n 's/^    code: "\(.*\)",$/\1/p' "$top/crates/t1_pages/src/lib.rt" | grep -v '^E[0-9]' >"$scratch/list"
compare_codes crates/t1_pages/src/lib.rt codes <"$scratch/list"
list_cases >"$scratch/list"
compare_codes 'tests/program, cases of the rules and their fonts' codes <"$scratch/list"

# Other files that have all rules.
sed -n '/^## From a rule/,$p' "$top/docs/dev/ARCHITECTURE.md" >"$scratch/passage"
(cd "$top" && find README.md bin completions crates docs man tests bench \( -name out -o -name t1check.html \) -prune -o -type f -exec grep -lw U01 {} +) >"$scratch/files"
while IFS= read -r file; do
    codes_in "$top/$file" >"$scratch/place"
    cmp -s "$scratch/place" "$scratch/sorted" || continue
    if grep -qF -e "$file" "$scratch/passage"; then
        pass
    else
        fail "docs/dev/ARCHITECTURE.md: $file has all rules, and isn't among their places"
    fi
done <"$scratch/files"

# Whether each definition of a file has a row of its own: those that the README's first promise rests on, but for views, which say what a
# value of Rust holds.
has_rows() {
    case $1 in
        *Views | t1_char/StepValues | t1_font/Entries) return 1 ;;
        t1_seal/* | t1_scan/* | t1_words/* | t1_font/* | t1_texts/* | t1_char/* | t1_rules/* | t1_drawing/* | t1_report/* | t1_answer/*) return 0 ;;
    esac
    return 1
}

# The words of the rows of docs/dev/DEFINITIONS.md, each after its file: `- [t1_seal/Cipher](..) (7)` begins a file, and `  - ` a row of it, unless
# its only row is in the same line. A row's words are before a colon.
awk '
    function take_row(    end, count, words, i) {
        end = index(row, "`: ")
        count = split(substr(row, 1, end), words, "`")
        for (i = 2; i <= count; i += 2) print file, words[i]
        row = ""
    }
    /^- \[t1_[A-Za-z0-9_\/]*\]\(/ {
        take_row()
        file = path = substr($0, 4, index($0, "]") - 4)
        sub(/\//, "/specs/", path)
        if (index($0, "(../../crates/" path ".antt)") == 0) file = file "-linked-elsewhere"
        sub(/^[^(]*[(][^)]*[)]/, "")
        sub(/^ [(][^)]*[)]/, "")
        row = $0
        next
    }
    /^  - `/ { take_row(); row = $0; next }
    /^ / { row = row $0; next }
    { take_row(); file = "" }
    END { take_row() }
' "$top/docs/dev/DEFINITIONS.md" | sort -u >"$scratch/defining"
list_row_words | cat - "$scratch/defining" | sort -u >"$scratch/listed"
sh "$top/tests/definitions.sh" | sed 's|^[^ ]* crates/\([^/]*\)/specs/\(.*\)\.antt |\1/\2 |' | sort -u >"$scratch/cited"
[ "$(wc -l <"$scratch/cited")" -gt 100 ] || fail "the words of contracts aren't read: $(wc -l <"$scratch/cited")"
# Definitions, their fields and cases, each after its file.
(cd "$top/crates" && find ./*/specs -name '*.antt' -exec awk '
    FNR == 1 { file = FILENAME; sub(/^\.\//, "", file); sub(/\/specs\//, "/", file); sub(/\.antt$/, "", file) }
    /^[a-z ]*pub [A-Za-z0-9_]+( |$)/ || /^  [A-Za-z0-9_]+ :/ {
        sub(/^([a-z ]*pub )?(record |data )? */, "")
        sub(/[^A-Za-z0-9_].*/, "")
        print file, $0
    }' {} +) | sort -u >"$scratch/defined"
while read -r file word; do
    case $file in
        */Private/*)
            fail "a contract of a public function cites $word of $file"
            continue
            ;;
    esac
    if ! grep -qxF -e "$file $word" "$scratch/defined"; then
        fail "tests/definitions.sh: nothing in $file defines $word, which a contract cites"
    elif has_rows "$file" && ! grep -qxF -e "$file $word" "$scratch/listed"; then
        fail "docs/dev/DEFINITIONS.md: no row of $file begins with $word, which a contract cites, nor does a rule's row cite it"
    else
        pass
    fi
done <"$scratch/cited"
while read -r file word; do
    if grep -qxF -e "$file $word" "$scratch/defined"; then
        pass
    else
        fail "docs/dev/DEFINITIONS.md: nothing in $file defines $word"
    fi
done <"$scratch/defining"
# Of rules without a row, which are L01 and U01, the page names the definition.
sed -n 's/^\(L01\|U01\) \([a-z_]*\)$/t1_report\/Reports \2/p' "$scratch/breaches" >"$scratch/named"
while IFS= read -r line; do
    if grep -qxF -e "$line" "$scratch/defining"; then pass; else fail "docs/dev/DEFINITIONS.md: no row has what breaks a rule, $line"; fi
done <"$scratch/named"
[ "$(wc -l <"$scratch/named")" -eq 2 ] || fail "what breaks L01 and U01 isn't read"
# How much is to be believed.
believed=$(sed -n 's|^- \[[a-z0-9_]*/[A-Za-z0-9/]*\](../../\(crates/[a-z0-9_]*/specs/[A-Za-z0-9/]*\.antt\)).*|\1|p' "$top/docs/dev/DEFINITIONS.md" | sort -u)
hundreds=$((($(cd "$top" && printf '%s\n' "$believed" | xargs cat | grep -cv '^ *$\|^ *--') + 99) / 100))
lists docs/dev/PROMISES.md 1 "$(printf '%s\n' "$believed" | wc -l | tr -d ' ') files, $((hundreds / 10)),$((hundreds % 10))00 lines"

# No definition outside specs/Private rests on a word of it, and so no clause of a public function does by another word; but for the
# relations of watchers and pens, which are in Standing, by their names and alone.
grep 'specs\.Private\.' "$top"/crates/*/specs/*.antt "$top"/crates/*/specs/[!P]*/*.antt | grep -v 'specs\.Private\.Standing\.' >"$scratch/resting"
while IFS= read -r line; do
    fail "${line#"$top"/}: rests on a word of specs/Private"
done <"$scratch/resting"
[ -s "$scratch/resting" ] || pass
cat "$top"/crates/*/specs/Private/Standing.antt | sed -n 's/^\([a-z][a-z]* \)\{0,1\}pub \(record \)\{0,1\}\([A-Za-z_]*\).*/\3/p' >"$scratch/relations"
while IFS= read -r word; do
    case $word in
        *StandFor | *StandsFor | StandsForAny | *Keep) pass ;;
        *) fail "specs/Private/Standing: $word is no relation of a watcher or a pen" ;;
    esac
done <"$scratch/relations"
[ "$(wc -l <"$scratch/relations")" -eq 21 ] || fail "the relations of watchers and pens aren't read"

# The README's lines for an editor are in the example.
sed -n '/^## As a library$/,/^## /s/^    //p' "$top/README.md" >"$scratch/editor"
while IFS= read -r line; do
    if grep -qF -e "$line" "$top/crates/example/src/main.rt"; then
        pass
    else
        fail "README.md: crates/example has no line '$line'"
    fi
done <"$scratch/editor"
[ "$(wc -l <"$scratch/editor")" -eq 6 ] || fail "the README's lines for an editor aren't read"

least=$(sed -n 's/^const LEAST_NODE = \([0-9]*\);$/\1/p' "$top/web/wasi.mjs")
(cd "$top" && grep -or 'node [0-9][0-9]* or later' README.md docs .pre-commit-hooks.yaml) | grep -v "node $least or later$" >"$scratch/other_nodes"
while IFS= read -r line; do
    fail "$line, but web/wasi.mjs needs node $least"
done <"$scratch/other_nodes"
[ -s "$scratch/other_nodes" ] || pass
sed -n '/^## What is trusted$/,$p' "$top/docs/BROWSER.md" >"$scratch/trusted"
(cd "$top" && find web -path web/out -prune -o -path web/modules -prune -o -type f -print) >"$scratch/parts"
while IFS= read -r file; do
    if grep -qF -e "$file" "$scratch/trusted"; then pass; else fail "docs/BROWSER.md: 'What is trusted' doesn't name $file"; fi
done <"$scratch/parts"

# A page's headings as their anchors.
anchors() {
    sed -n 's/^##* //p' "$1" | tr 'A-Z' 'a-z' | sed 's/[^a-z0-9 _-]//g; s/ /-/g'
}

for page in "$top/README.md" "$top/CONTRIBUTING.md" "$top"/docs/*.md "$top"/docs/dev/*.md; do
    grep -o '](\([^)]*\))' "$page" | sed 's/^](//; s/)$//' | sort -u >"$scratch/links"
    while IFS= read -r link; do
        case $link in http*) continue ;; esac
        file=${link%%#*}
        to=$page
        [ -z "$file" ] || to=$(dirname "$page")/$file
        if [ ! -e "$to" ]; then
            fail "${page#"$top"/}: no file $link"
        elif [ "$link" != "$file" ] && ! anchors "$to" | grep -qxF -e "${link#*#}"; then
            fail "${page#"$top"/}: no heading $link"
        else
            pass
        fi
    done <"$scratch/links"
    grep -o '\(bin\|crates\|docs\|tests\|web\)/[A-Za-z0-9_/.-]*[A-Za-z0-9_]' "$page" | sort -u >"$scratch/named"
    while IFS= read -r file; do
        case $file in */NAME* | */out | */out/* | bin/sh) continue ;; esac
        if [ -e "$top/$file" ] || [ -e "$top/$file.antt" ]; then
            pass
        else
            fail "${page#"$top"/}: there is no $file"
        fi
    done <"$scratch/named"
done

printf '%d passed, %d failed\n' "$passed" "$failed"
[ "$failed" -eq 0 ]
