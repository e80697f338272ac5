# Reads a font's bytes, as `od -An -v -tu1` prints them, and writes what tests/beside/causes.awk looks at, a line each:
#     key NAME VALUE   an entry that t1lint reads as a number or numbers
#     late             no line begins with a whole /BlueValues, or with `currentfile eexec`
#     glyph NAME
#     subr N BYTES
#     ghost N          the entry of a glyph after a blank, which t1lint takes for Subr N

function decrypt(byte,    high, plain) {
    high = int(state / 256)
    plain = 16 * mixed[int(byte / 16), int(high / 16)] + mixed[byte % 16, high % 16]
    state = ((byte + state) * 52845 + 22719) % 65536
    return plain
}

# A hexadecimal digit's value, else -1.
function digit(byte) {
    return byte >= 48 && byte <= 57 ? byte - 48 : byte >= 65 && byte <= 70 ? byte - 55 : byte >= 97 && byte <= 102 ? byte - 87 : -1
}

# Puts the payloads of a PFB's segments together.
function join(    at, to, long, i) {
    while (file[at + 0] == 128 && (file[at + 1] == 1 || file[at + 1] == 2)) {
        long = file[at + 2] + 256 * (file[at + 3] + 256 * (file[at + 4] + 256 * file[at + 5]))
        for (i = at + 6; i < at + 6 + long && i < size; i++) file[to++] = file[i]
        at += 6 + long
    }
    if (to) size = to
}

# Decrypts the section that begins at a place, in the place of its bytes; returns how many it has.
function open_section(at,    to, i, hexadecimal, odd, high) {
    while (at < size && file[at] ~ /^(32|9|10|13)$/) at++
    hexadecimal = 1
    for (i = at; i < at + 4; i++) if (digit(file[i]) < 0) hexadecimal = 0
    state = 55665
    for (; at < size; at++) {
        if (!hexadecimal) file[to++] = decrypt(file[at])
        else if (digit(file[at]) >= 0) {
            if (odd) file[to++] = decrypt(16 * high + digit(file[at]))
            odd = !odd
            high = digit(file[at])
        } else if (file[at] > 32) break
    }
    return to
}

# Writes the entry whose head is at the end of a line, with the bytes from a place on; returns how many it has, -1 if there is no such head.
function read_entry(line, at,    words, count, long, bytes, i) {
    count = split(line, words, " ")
    if (line !~ / $/ || !((words[count]) in definers) || words[count - 1] !~ /^[0-9]+$/) return -1
    long = words[count - 1] + 0
    if (words[count - 2] ~ /^\//) {
        print "glyph " substr(words[count - 2], 2)
        # t1lint reads a number three bytes on, as behind `dup`.
        if (line ~ /^ +\//) { sub(/^.../, "", line); print "ghost " line + 0 }
    } else if (words[count - 3] == "dup") {
        state = 4330
        for (i = 0; i < long; i++) {
            plain = len_iv < 0 ? file[at + i] : decrypt(file[at + i])
            if (i >= len_iv) bytes = bytes " " plain
        }
        print "subr " words[count - 2] bytes
    } else return -1
    return long
}

# Writes the entries of a key.
function read_key(key,    rest, value) {
    for (rest = text; match(rest, "/" key "[ \t\r\n]*(\\[[^]]*\\]|\\{[^}]*\\}|[^] \t\r\n/[{}(<]+)"); rest = substr(rest, RSTART + RLENGTH)) {
        value = substr(rest, RSTART + 1 + length(key), RLENGTH - 1 - length(key))
        gsub(/[ \t\r\n]+/, " ", value)
        sub(/^ /, "", value)
        print "key " key " " value
    }
}

BEGIN {
    for (a = 0; a < 16; a++) for (b = 0; b < 16; b++) for (bit = 1; bit < 16; bit *= 2)
        mixed[a, b] += int(a / bit) % 2 == int(b / bit) % 2 ? 0 : bit
    for (byte = 1; byte < 256; byte++) code[byte] = sprintf("%c", byte)
    definers["RD"] = definers["-|"] = 1
    len_iv = 4
}
{ for (i = 1; i <= NF; i++) file[size++] = $i }
END {
    join()
    for (at = 0; at < size && line !~ /currentfile +eexec[ \r\n]$/; at++) {
        if (line ~ /[\r\n]$/) { text = text line; line = "" }
        line = line code[file[at]]
    }
    text = text line
    if (text !~ /[\r\n]currentfile eexec[ \t\r\n]+$/) print "late"
    size = open_section(at)
    line = ""
    for (at = 4; at < size; at++) {
        line = line code[file[at]]
        if (file[at] == 32 && (long = read_entry(line, at + 1)) >= 0) {
            at += long
            line = ""
        } else if (file[at] == 10 || file[at] == 13) {
            if (line ~ /string currentfile.*readstring/ && match(line, /\/[^ {]+/)) definers[substr(line, RSTART + 1, RLENGTH - 1)] = 1
            if (match(line, /\/lenIV +-?[0-9]+/)) len_iv = substr(line, RSTART + 6, RLENGTH - 6) + 0
            text = text line
            line = ""
        }
    }
    text = text line
    split("UniqueID XUID BlueScale BlueShift BlueFuzz BlueValues OtherBlues FamilyBlues FamilyOtherBlues StdHW StdVW StemSnapH StemSnapV", keys, " ")
    for (i = 1; i in keys; i++) read_key(keys[i])
    if (text ~ /\/BlueValues/ && text !~ /[\r\n] *\/BlueValues[^\r\n]*[]}]/) print "late"
}
