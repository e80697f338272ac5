#!/bin/sh
# Writes src/lib.rt: the page of each rule and refusal, as bin/t1explain prints it. tests/docs.sh compares that file with what this writes.
set -u
LC_ALL=C
export LC_ALL

top=$(CDPATH='' cd -P -- "$(dirname "$0")/../.." && pwd -P) || exit 1
codes=$(sed -n 's/^### \([A-Z]*[0-9][0-9]\) .*/\1/p' "$top/docs/RULES.md") || exit 1
cat <<HEAD || exit 1
//! The pages of rules and refusals, as docs/RULES.md has them. Made by pages.sh; what is changed here is lost.
#![tactic(auto)]

use t1_forms::Page;

HEAD
for code in $codes; do
    "$top/bin/t1explain" "$code" | awk '
        function replace(text, from, to,    out, at) {
            while ((at = index(text, from)) > 0) {
                out = out substr(text, 1, at - 1) to
                text = substr(text, at + length(from))
            }
            return out text
        }
        function literal(text) {
            return replace(replace(text, "\\", "\\\\"), "\"", "\\\"")
        }
        function anchor(text) {
            text = tolower(text)
            gsub(/[^a-z0-9 -]/, "", text)
            gsub(/ /, "-", text)
            return text
        }
        NR == 1 { code = $1; heading = $0; next }
        NR > 2 { page = page (NR > 3 ? "\\n" : "") literal($0) }
        END {
            printf "static %s: Page = Page {\n    code: \"%s\",\n    anchor: \"%s\",\n    title: \"%s\",\n    text: \"%s\",\n};\n\n", \
                code, code, anchor(heading), literal(substr(heading, length(code) + 2)), page
            printf "fn %s() -> &\047static Page {\n    &%s\n}\n\n", tolower(code), code
        }'
done
printf '%s\n' "$codes" | awk '
    { all = all "        *" tolower($0) "(),\n" }
    END {
        print "/// All pages, in the order of docs/RULES.md. A page is borrowed by a function of its own: of a static array of all the borrow"
        print "/// checker\047s part stops at its limit."
        printf "pub fn pages() -> [Page; %d] {\n    [\n%s    ]\n}\n", NR, all
    }'
