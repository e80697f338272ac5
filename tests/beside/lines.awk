# Prints each message of the second file that has no line in the report, the first file: none of the same entry, glyph or Subr by a rule of
# its row below. Of a row's rules the first ones say what the message says; why others do, is in the comment above it.
BEGIN {
    # Of the font: message | entries, by name or as the number of the message's word that names one | rules. A number with an exponent, and what
    # t1lint takes for two numbers (`1.5.5`), is a word here: Z01 or F18.
    font["UniqueID not in the range"] = "UniqueID|F05"
    font["Private UniqueID not in the range"] = "PrivateUniqueID|F05"
    # t1lint goes on with the digits at the front of what is no whole number, or 0.
    font["Private UniqueID does not equal"] = "PrivateUniqueID UniqueID|F06 F05"
    font["UniqueID not an? (integer|number)"] = "UniqueID PrivateUniqueID|F05"
    font["XUID not an array"] = font["empty XUID"] = "XUID|F18"
    font["element of XUID not an integer"] = "XUID|F19 F18"
    font["Blue(Scale|Shift|Fuzz) not a (real )?number"] = "1|Z01"
    font["BlueScale less than|suspiciously large BlueScale"] = "BlueScale|Z17 Z01"
    font["BlueShift (not an integer|less than)"] = "BlueShift|Z18 Z01"
    font["BlueFuzz (not an integer|less than)|suspiciously large BlueFuzz"] = "BlueFuzz|Z19 Z01"
    # t1lint takes no entry whose array has a string.
    font["BlueValues not defined"] = "BlueValues|Z12 Z01"
    font["(Blues|Values|Std[HV]W|StemSnap[HV]) not an array of numbers"] = "1|Z01"
    font["has an odd number of entries"] = "1|Z03 Z01"
    # Of a list's numbers past those that are kept Z02 speaks, or Z09.
    font["some .* entries are not integers"] = "2|Z14 Z02 Z01"
    font["in the wrong order"] = "1|Z04 Z02 Z01"
    # t1lint takes 0.039625 where BlueScale is 0 or less, and 1 where BlueFuzz is negative.
    font["too large in relation to BlueScale"] = "1 BlueScale|Z07 Z02 Z17 Z01"
    font["too many zones in"] = "5|Z02 Z01"
    # t1lint compares zones that fall, and an odd list's last number as a zone.
    font["zone [0-9]+ overlap"] = "1 5 BlueFuzz|Z05 Z06 Z02 Z03 Z04 Z19 Z01"
    font["has more than 12 entries"] = "1|Z09 Z01"
    font["is not sorted in increasing order"] = "1|Z10 Z15 Z09 Z01"
    font["not in StemSnap"] = "4|Z11 Z16 Z01"
    font["exactly one required"] = "1|Z08 Z01"
    font["entry less than or equal to 0"] = "1|Z13 Z01"

    # Of a glyph: message | rules.
    glyph["small delta-"] = "H03 H05"
    # t1lint compares with a stem of zero width alone.
    glyph["overlapping '"] = "H03"
    # t1lint puts the three in order first: the middle one then is another, which overlaps.
    glyph["extreme stem widths unequal|stem gaps unequal"] = "H04 H02"
    glyph["conflicts with old"] = "H07"
    glyph["has both '"] = "H06"
    glyph["too many arguments to '"] = "C05"
    glyph["first command not"] = "W01 W03"
    glyph["duplicate 'hsbw'"] = "W02"
    glyph["commands past end"] = "GE01 C02 S04"
    glyph["stack underflow"] = "C04 O04"
    # Points of flex past the eleventh are too many for t1lint's own stack.
    glyph["stack overflow"] = "C06 X04"
    # A second hsbw takes away t1lint's point.
    glyph["no current point"] = "P01 W02"
    glyph["bad subroutine number"] = "S01"
    glyph["subrs nested too deep"] = "S02"
    glyph["unimplemented|bad value|bad vector|bad othersubr|multiple master error"] = "C03 O01"
    glyph["unknown callothersubr"] = "O01 O03"
    glyph["wrong number of arguments to"] = "O03"
    glyph["flex error|no Flex in progress"] = "X02"
    # Other calls and pops take away t1lint's points.
    glyph["Flex needs 16 arguments"] = "X04 O01 O03 O04 O05"
    glyph["Flex control points must be separated"] = "X04"
    glyph["duplicate counter control"] = "O06"
    glyph["counter control must appear"] = "O05"
    glyph["too many arguments to counter control"] = "O02"
    glyph["too few arguments to counter control"] = "O07"
    glyph["partial counter control"] = "O08"

    # Of a Subr, whose own lines are F21 and those of glyphs while they execute it.
    subr["does not return|commands past end"] = "F21 C03"
    subr["stack overflow"] = "C06"

    # What t1lint executes in another way than t1check, so that what comes after it in the glyph differs: commands of Type 2, numbers past 24 or
    # past 32000, division by zero, a bad count, counter control that leaves numbers, and the end of a flex that isn't one: it leaves the Subr.
    other = "C03 C06 C07 C08 C09 O02 O07 X02 X04"
    FS = "\t"
}

function broken(unit, rules,    count, words, i) {
    count = split(rules, words, " ")
    for (i = 1; i <= count; i++) if ((unit, words[i]) in lines) return 1
    return 0
}

function has_line(text,    pattern, row, keys, count, words, i) {
    if ($1 == "font") {
        split(text, words, " ")
        for (pattern in font) if (text ~ pattern) {
            split(font[pattern], row, "|")
            count = split(row[1], keys, " ")
            for (i = 1; i <= count; i++)
                if (broken("font " (keys[i] in words ? words[keys[i]] : keys[i]), row[2])) return 1
        }
        return 0
    }
    if ($1 ~ /^subr /) {
        for (pattern in subr) if (text ~ pattern && broken($1, subr[pattern])) return 1
        return 0
    }
    for (pattern in glyph) if (text ~ pattern && broken($1, glyph[pattern] " " other)) return 1
    return 0
}

# A line of the report.
FILENAME == ARGV[1] {
    split($0, w, " ")
    if (w[2] == "font") {
        lines["font " w[3], w[5]] = 1
        if (w[3] == "Subrs") lines["subr " w[4], w[5]] = 1
    } else if (w[2] == "glyph") {
        lines["glyph " w[3], w[6]] = 1
        path = w[4]
        sub(/.*>/, "", path)
        if (path != "-") lines["subr " path, w[6]] = 1
    }
    next
}
{
    text = $2
    sub(/^(called from )?command -?[0-9]+: /, "", text)
    sub(/^warning: /, "", text)
    if (!has_line(text)) print
}
