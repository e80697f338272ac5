# What programs of awk share that write a font, a PFA: its encrypted section. Read in before such a program: awk -f eexec.awk -f PROGRAM. It calls
# begin_section after the clear text, then put_text and put, and end_section.

# A byte, encrypted by the cipher's state, `key`.
function sealed(byte,    high) {
    high = int(key / 256)
    byte = 16 * mixed[int(byte / 16), int(high / 16)] + mixed[byte % 16, high % 16]
    key = ((byte + key) * 52845 + 22719) % 65536
    return byte
}

# Writes a byte of the section, in hexadecimal.
function put(byte) {
    printf "%02x%s", sealed(byte), ++bytes % 32 ? "" : "\n"
}

function put_text(text,    i) {
    for (i = 1; i <= length(text); i++) put(code[substr(text, i, 1)])
}

function begin_section(    i) {
    key = 55665
    for (i = 0; i < 4; i++) put(0)
}

function end_section(    i) {
    print ""
    for (i = 0; i < 8; i++) print "0000000000000000000000000000000000000000000000000000000000000000"
    print "cleartomark"
}

BEGIN {
    for (a = 0; a < 16; a++) for (b = 0; b < 16; b++) for (bit = 1; bit < 16; bit *= 2)
        mixed[a, b] += int(a / bit) % 2 == int(b / bit) % 2 ? 0 : bit
    for (byte = 1; byte < 256; byte++) code[sprintf("%c", byte)] = byte
}
