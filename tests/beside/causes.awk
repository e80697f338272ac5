# Says of each message of the last file, which has no line, which cause lets it pass: `passes CAUSE`, else `without`, then a tab and the message. The
# other files are what text.awk writes of the font, and the steps of its glyphs. docs/T1LINT.md explains the causes.

# A number cut after nine decimals, in units of 10^-9.
function cut(text,    parts) {
    split(text, parts, ".")
    return parts[1] * 1000000000 + substr(parts[2] "000000000", 1, 9)
}

function is_whole(text) {
    return text ~ /^[-+]?[0-9]*\.?[0-9]*$/ && cut(text) % 1000000000 == 0
}

# The numbers of the last entry of a key, in `numbers`; returns how many.
function last_numbers(key,    text) {
    text = last[key]
    gsub(/[][{}]/, " ", text)
    return split(text, numbers, " ")
}

# Whether an entry of the key is a text with the pattern.
function any(key, pattern,    i) {
    for (i = 1; i <= entries[key]; i++) if (entry[key, i] ~ pattern) return 1
    return 0
}

# Only the decimals of BlueScale past the ninth make the zone too high.
function is_beyond_decimals(key, zone,    height) {
    last_numbers(key)
    height = numbers[2 * zone + 2] - numbers[2 * zone + 1]
    return last["BlueScale"] ~ /^0?\.[0-9][0-9][0-9][0-9][0-9][0-9][0-9][0-9][0-9][0-9]/ && height == int(height) &&
        height * cut(last["BlueScale"]) < 1000000000 && height * (cut(last["BlueScale"]) + 1) >= 1000000000
}

# Whether all numbers of XUID that are kept are in range, and a later one isn't.
function is_past_sixteenth(    count, i, bad) {
    count = last_numbers("XUID")
    for (i = 1; i <= count; i++) if (!is_whole(numbers[i]) || numbers[i] < 0 || numbers[i] > 16777215) { bad = i; break }
    return bad > 16
}

# Looks at a Subr's tokens: whether byte 28 is one (`has_28`), and more than the 48 numbers of t1lint's stack come in a row (`is_over`).
function read_tokens(bytes,    byte, i, count, run) {
    count = split(bytes, byte, " ")
    has_28 = is_over = 0
    for (i = 1; i <= count; i += byte[i] == 255 ? 5 : byte[i] >= 247 || byte[i] == 12 ? 2 : 1) {
        if (byte[i] == 28) has_28 = 1
        run = byte[i] >= 32 ? run + 1 : 0
        if (run > 48) is_over = 1
    }
}

function cause(where, text,    w) {
    split(text, w, " ")
    if (where == "font") {
        if (text ~ /too large in relation to BlueScale/ && is_beyond_decimals(w[1], w[3])) return "decimals of BlueScale past the ninth"
        if (text ~ /^(UniqueID|BlueShift|BlueFuzz) not an integer/ && any(w[1], "^[-+]?[0-9]+\\.0*$")) return "whole by value"
        if (text ~ /not an? (real )?number$/ && any(w[1], "^-\\.")) return "a number that begins with -."
        if (text ~ /^element of XUID/ && is_past_sixteenth()) return "numbers of XUID past the sixteenth"
        if (text ~ /^BlueValues not defined/ && late) return "BlueValues where t1lint loses its place"
    } else if (where ~ /^subr /) {
        number = substr(where, 6)
        if (text ~ /commands past end|does not return/ && number in ghost) return "a glyph after a blank, taken for a Subr"
        if (number in called) return ""
        read_tokens(subr[number])
        if (text ~ /commands past end|does not return/ && has_28) return "byte 28 in a Subr that no glyph calls"
        if (text ~ /stack overflow/ && is_over) return "full stack in a Subr that no glyph calls"
    } else if (text ~ /partial counter control/ && parts[substr(where, 7)]-- > 0) return "counter control in parts"
    return ""
}

BEGIN { FS = "\t" }
FILENAME == ARGV[1] {
    split($0, w, " ")
    rest = substr($0, length(w[1] w[2]) + 3)
    if (w[1] == "key") last[w[2]] = entry[w[2], ++entries[w[2]]] = rest
    else if (w[1] == "subr") subr[w[2]] = rest
    else if (w[1] == "ghost") ghost[w[2]] = 1
    else if (w[1] == "late") late = 1
    next
}
# A step: which Subrs are executed, and where 12 comes after 12 with nothing that clears the stack between.
FILENAME == ARGV[2] {
    split($2, w, " ")
    count = split(w[2], path, ">")
    for (i = 1; i <= count; i++) called[path[i]] = 1
    if ($1 != unit) { unit = $1; told = "" }
    token = w[3]
    if (token == "callothersubr") {
        if (told == "12" && before == "12") parts[unit]++
        told = before
    } else if (token !~ /^(-?[0-9]+|div|pop|callsubr|return|unknown|cut|short|end|limit)$/) told = ""
    before = token
    next
}
{
    text = $2
    sub(/^(called from )?command -?[0-9]+: /, "", text)
    sub(/^warning: /, "", text)
    why = cause($1, text)
    print why == "" ? "without\t" $1 ": " $2 : "passes " why "\t" $0
}
