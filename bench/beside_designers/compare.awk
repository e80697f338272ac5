# Compares messages of other programs with reports: awk -f compare.awk REPORTS FACTS MESSAGES
# Rows of REPORTS have a font and a line of its report; of FACTS those of fontforge.py whose message is `facts`; of MESSAGES a font, a glyph, a message and
# perhaps a point as `x,y`. All have tabs between. Prints a row for each glyph and message: `line`, `without`, or `cause: NAME`; the message;
# the font; the glyph. A message that no rule is compared with has `alone`.

# Whether the report has a line of a glyph or of the font by one of some rules.
function has_line(font, glyph, rules,    count, list, i) {
    count = split(rules, list, " ")
    for (i = 1; i <= count; i++) if ((font, glyph, list[i]) in lines || (list[i] ~ /^[FZ]/ && (font, list[i]) in lines)) return 1
    return 0
}

# Whether all points of a glyph's message are at the beginning or at the end of a contour.
function are_ends(font, glyph, message,    count, list, i) {
    count = split(points[font, glyph, message], list, " ")
    for (i = 1; i <= count; i++) if (index(";" fact[font, glyph, "ends"] ";", ";" list[i] ";") == 0) return 0
    return count > 0
}

# The cause by which a message has no line, or nothing. That of an accented character is its component's, if the message names one of these too.
function cause_of(font, glyph, message,    count, list, i) {
    count = split(fact[font, glyph, "refs"], list, ",")
    for (i = 1; i <= count; i++) {
        if (!((font FS list[i] FS message) in seen)) continue
        return has_line(font, list[i], rules_of[message]) ? "a component has the line" : cause_of(font, list[i], message)
    }
    if (message == "FontForge: Wrong direction" && fact[font, glyph, "contours"] > 1 && fact[font, glyph, "right"] == 1)
        return "one contour of several"
    if (message ~ /extrema/ && fact[font, glyph, "beyond"] < 3) return "less than three units"
    if (message ~ /extrema/ && fact[font, glyph, "quarters"] < 3) return "less than three units at the quarters"
    if (message == "checkoutlines: Colinear line" && are_ends(font, glyph, message)) return "where a contour begins or ends"
    return ""
}

BEGIN {
    FS = "\t"
    rules_of["FontForge: Wrong direction"] = "P05"
    rules_of["FontForge: Missing points at extrema"] = "P10"
    rules_of["FontForge: Overlapped hints"] = "H02 H09 H03"
    rules_of["checkoutlines: Colinear line"] = "P08 P07 P06 P09"
    rules_of["checkoutlines: Flat curve"] = "P09 P06"
    rules_of["checkoutlines: Coincident points"] = "P06"
    # Of the font, not of a glyph.
    rules_of["FontForge: Duplicate glyph"] = "F10"
    rules_of["tx: duplicate charstring (discarded)"] = rules_of["tx -t1: duplicate charstring (discarded)"] = "F10"
    rules_of["tx: regular zone overlap (ignored)"] = rules_of["tx -t1: regular zone overlap (ignored)"] = "Z05 Z04"
    for (i = 1; i <= 2; i++) {
        name = substr("HV", i, 1)
        rules_of["tx: /StemSnap" name " array empty (discarded)"] = rules_of["tx -t1: /StemSnap" name " array empty (discarded)"] = "Z16"
    }
    rules_of["tx: negative hint (reversed)"] = "H10"
    rules_of["tx: moveto sequence (collapsed)"] = "P11 P03"
    rules_of["tx: moveto preceeds closepath (discarded)"] = "P03"
    rules_of["tx: hint overlap"] = "H02 H09 H03"
}
FNR == 1 { file++ }
file == 1 {
    split($2, words, " ")
    if (words[2] == "glyph") lines[$1, words[3], words[6]] = 1
    else lines[$1, words[5]] = 1
    next
}
file == 2 {
    count = split($4, words, " ")
    for (i = 1; i <= count; i++) {
        at = index(words[i], "=")
        fact[$1, $2, substr(words[i], 1, at - 1)] = substr(words[i], at + 1)
    }
    next
}
{
    key = $1 FS $2 FS $3
    if ($4 ~ /^-?[0-9]/) points[$1, $2, $3] = points[$1, $2, $3] $4 " "
    if (!(key in seen)) order[++rows] = key
    seen[key] = 1
}
END {
    for (row = 1; row <= rows; row++) {
        split(order[row], words, FS)
        state = "alone"
        if (words[3] in rules_of) {
            state = "line"
            if (!has_line(words[1], words[2], rules_of[words[3]])) {
                cause = cause_of(words[1], words[2], words[3])
                state = cause == "" ? "without" : "cause: " cause
            }
        }
        print state FS words[3] FS words[1] FS words[2]
    }
}
