#!/bin/sh
# Writes docs/RULES.md, and docs/REFERENCE.md after it, as the manual page t1check-rules(7).
#
# Of a table each row becomes an item: its first cell, then the others, the further ones each after its column's heading.
# Links become their texts. Lists of contents and pictures are omitted.
set -u
LC_ALL=C
export LC_ALL

top=$(CDPATH='' cd -P -- "$(dirname "$0")/.." && pwd -P) || exit 1

version=$(sed -n 's/^pub const VERSION: &str = "\(.*\)";$/\1/p' "$top/crates/t1_forms/src/version.rt") || exit 1
cat <<END || exit 1
.TH T1CHECK\\-RULES 7 2026-11-27 "t1check $version" "rules of t1check"
.SH NAME
t1check\\-rules \\- rules and refusals of t1check
.SH DESCRIPTION
END
# shellcheck disable=SC2016
{ cat "$top/docs/RULES.md" && sed -n '/^## /,$p' "$top/docs/REFERENCE.md"; } | awk '
    function replace(text, from, to,    out, at) {
        while ((at = index(text, from)) > 0) {
            out = out substr(text, 1, at - 1) to
            text = substr(text, at + length(from))
        }
        return out text
    }
    function plain(text) {
        text = replace(text, "\\", "\\e")
        text = replace(text, "…", "...")
        text = replace(text, "×", "\\(mu")
        text = replace(text, "−", "\\-")
        text = replace(text, "≡", "\\(==")
        text = replace(text, "·", "\\(pc")
        return text
    }
    function literal(text) {
        text = plain(text)
        text = replace(text, "-", "\\-")
        text = replace(text, "\047", "\\(aq")
        text = replace(text, "`", "\\(ga")
        text = replace(text, "^", "\\(ha")
        text = replace(text, "~", "\\(ti")
        return text
    }
    # The text with its links, its code (bold) and its emphasis (italic).
    function inline(text,    link, label, count, parts, spans, i, j, n, out) {
        while (match(text, /\[[^][]*\]\([^)]*\)/)) {
            link = substr(text, RSTART, RLENGTH)
            label = substr(link, 2, index(link, "](") - 2)
            text = substr(text, 1, RSTART - 1) label substr(text, RSTART + RLENGTH)
        }
        count = split(text, parts, /`/)
        for (i = 1; i <= count; i++) {
            if (i % 2 == 0) {
                parts[i] = replace(parts[i], "bin/t1", "t1")
                if (parts[i] ~ /^ /) parts[i] = "\001" substr(parts[i], 2)
                out = out "\\fB" replace(literal(parts[i]), "\001", "\\0") "\\fR"
                continue
            }
            n = split(replace(parts[i], "**", "*"), spans, /[*]/)
            for (j = 1; j <= n; j++) out = out (j % 2 ? plain(spans[j]) : "\\fI" plain(spans[j]) "\\fR")
        }
        return out
    }
    function write_line(line) {
        print (line ~ /^[.\047]/ ? "\\&" : "") line
    }
    # Fills lines of at most 78 bytes, with an end for all but the last one.
    function fill(text, end,    count, words, i, line) {
        count = split(inline(text), words, / +/)
        for (i = 1; i <= count; i++) {
            if (line != "" && length(line) + length(words[i]) > 75) {
                write_line(line end)
                line = ""
            }
            line = line (line == "" ? "" : " ") words[i]
        }
        if (line != "") write_line(line)
    }
    # Writes what was gathered: a paragraph or an item of a list.
    function flush() {
        if (held != "" && kind == "item") print ".IP \\(bu 2"
        else if (held != "" && !is_first) print ".PP"
        if (held != "") {
            fill(held)
            is_first = 0
        }
        held = ""
        kind = ""
        if (is_code) print ".RE\n.fi"
        is_code = 0
        columns = 0
    }
    function cells(row,    i) {
        gsub(/^\| *| *\|$/, "", row)
        count = split(row, cell, / *\| */)
    }
    function row_of_table(    i) {
        cells($0)
        if (!columns) {
            columns = count
            for (i = 1; i <= count; i++) heading[i] = cell[i]
            return
        }
        # What comes after .TP as one line is the head of the item.
        print ".TP"
        fill(cell[1], " \\")
        for (i = 2; i <= count; i++) {
            if (i > 2) print ".br"
            fill((i > 2 || heading[1] == "" ? heading[i] ": " : "") cell[i])
        }
        is_first = 0
    }
    BEGIN { is_first = 1 }
    /^# / { next }
    /^##/ {
        flush()
        within = 1
        print ($1 == "##" ? ".SH " : ".SS ") plain(substr($0, length($1) + 2))
        is_first = 1
        next
    }
    /^!\[/ { next }
    /^\|[-|]*$/ { next }
    /^\|/ {
        if (!columns) flush()
        row_of_table()
        next
    }
    /^    / && (held == "" || kind == "") {
        if (!is_code) {
            flush()
            if (!is_first) print ".PP"
            print ".nf\n.RS 4"
            is_code = 1
            is_first = 0
        }
        write_line(literal(substr($0, 5)))
        next
    }
    /^ *- / && (held == "" || kind == "item") {
        flush()
        if (!within) next
        kind = "item"
        held = $0
        sub(/^ *- /, "", held)
        next
    }
    /^$/ { flush(); next }
    {
        if (is_code || columns) flush()
        sub(/^ +/, "")
        if (kind == "") kind = "text"
        held = held (held == "" ? "" : " ") $0
    }
    END { flush() }
' || exit 1
cat <<'END'
.SH SEE ALSO
.BR t1check (1),
.BR t1check\-all (1),
.BR t1explain (1)
END
