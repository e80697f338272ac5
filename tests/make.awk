# Writes a font, a PFA, after eexec.awk: a sound one with the changes of standard input, a line each, as examples of docs/RULES.md have them.
#
#   /StdHW [20] def            an entry in the place of that of its name, or one more; `% in Private` may say in which dictionary. A second line of
#                              one name is one entry more
#   % Private without /KEY     takes an entry away
#   Subr 5: TOKENS, A: TOKENS  Subr 5, glyph A; blank-B is a glyph whose name has a blank before its slash
#   /A 9 RD … ND               the font has these glyphs alone; with fewer bytes than lenIV says the charstring has zeros
#   /Subrs 5 array             how many Subrs the array has room for; `dup 5 7 RD … NP` is a Subr
#   dup 65 /A put              a row of a custom Encoding
#   10 20 … (thirteen times)   tokens that occur so often, from the line's beginning; a line that begins with three blanks goes on with the tokens
#   3*0, #0C63                 tokens: three times 0, two bytes
#   unknown 15                 a token: that byte; `, and the bytes 255 0` are bytes at the end
#   dup /Privat 8 dict dup begin    how the private text begins
#   %!FontType1-1.0: T         the first line
#   20}dict begin, % Ren\351   all else is a line of text, behind the first one; \351 in it is a byte, in octal

# Puts a token's bytes at the end of the charstring `out`.
function add(token,    i) {
    if (token in commands) {
        if (commands[token] >= 256) out[size++] = 12
        out[size++] = commands[token] % 256
    } else if (token ~ /^#/)
        for (i = 2; i < length(token); i += 2)
            out[size++] = 16 * (index(digits, substr(token, i, 1)) - 1) + index(digits, substr(token, i + 1, 1)) - 1
    else if (token >= -107 && token <= 107) out[size++] = token + 139
    else if (token >= -1131 && token <= 1131) {
        out[size++] = (token < 0 ? 251 : 247) + int(((token < 0 ? -token : token) - 108) / 256)
        out[size++] = ((token < 0 ? -token : token) - 108) % 256
    } else {
        out[size++] = 255
        if (token < 0) token += 4294967296
        for (i = 16777216; i >= 1; i /= 256) out[size++] = int(token / i) % 256
    }
}

# Writes an entry: what is before its length, its tokens, the word behind it. `N bytes` is a charstring of N zeros.
function put_charstring(head, tokens, tail,    count, words, i, held) {
    count = split(tokens, words, " ")
    size = 0
    if (words[2] == "bytes") {
        put_text(head " " words[1] " RD ")
        for (i = 0; i < words[1]; i++) put(0)
    } else {
        for (i = 0; i < 4; i++) out[size++] = 0
        for (i = 1; i <= count; i++) {
            if (words[i] == "unknown") out[size++] = words[++i]
            else if (words[i] == "bytes") while (i < count) out[size++] = words[++i]
            else add(words[i])
        }
        held = key
        key = 4330
        for (i = 0; i < size; i++) out[i] = sealed(out[i])
        key = held
        put_text(head " " size " RD ")
        for (i = 0; i < size; i++) put(out[i])
    }
    put_text(tail "\n")
}

# `3*0` and `0 … (three times)` written out.
function spread(text,    at, end, n, group, all, count, words, i, parts) {
    while ((at = index(text, " … (")) > 0) {
        end = index(text, " times)")
        n = times[substr(text, at + length(" … ("), end - at - length(" … ("))]
        group = substr(text, 1, at - 1)
        all = ""
        while (n-- > 0) all = all " " group
        text = substr(all, 2) substr(text, end + length(" times)"))
    }
    all = ""
    count = split(text, words, " ")
    for (i = 1; i <= count; i++)
        if (words[i] ~ /^\[?[0-9]+\*/) {
            split(words[i], parts, "*")
            if (sub(/^\[/, "", parts[1])) all = all " ["
            for (n = 0; n < parts[1] + 0; n++) all = all " " parts[2]
        } else all = all " " words[i]
    return substr(all, 2)
}

function set_glyph(name, tokens) {
    sub(/, and the bytes /, " bytes ", tokens)
    if (!(name in glyph)) names[++glyphs] = name
    glyph[name] = tokens
}

function set_subr(number, tokens) {
    subr[number] = tokens
    if (number > most) most = number
}

# An entry of the clear text or of Private, in the place of that of its name.
function set_entry(where, line,    name) {
    name = line
    sub(/ .*/, "", name)
    if (!((where, name) in place) || (where, name) in given) place[where, name] = ++entries[where]
    entry[where, place[where, name]] = line "\n"
}

# The text with its bytes in octal as bytes.
function with_bytes(text,    at) {
    while ((at = match(text, /\\[0-3][0-7][0-7]/)) > 0)
        text = substr(text, 1, at - 1) sprintf("%c", 64 * substr(text, at + 1, 1) + 8 * substr(text, at + 2, 1) + substr(text, at + 3, 1)) \
            substr(text, at + 4)
    return text
}

# Takes an entry of Private away.
function remove(name) {
    entry["private", place["private", name]] = ""
}

# All entries of a dictionary, in their order.
function written(where,    i, text) {
    for (i = 1; i <= entries[where]; i++) text = text entry[where, i]
    return text
}

BEGIN {
    digits = "0123456789ABCDEF"
    # A command of two bytes is 256 and its second one.
    count = split("hstem 1 vstem 3 vmoveto 4 rlineto 5 hlineto 6 vlineto 7 rrcurveto 8 closepath 9 callsubr 10 return 11 hsbw 13 endchar 14 " \
        "rmoveto 21 hmoveto 22 vhcurveto 30 hvcurveto 31 dotsection 256 vstem3 257 hstem3 258 seac 262 sbw 263 div 268 callothersubr 272 " \
        "pop 273 setcurrentpoint 289", words, " ")
    for (i = 1; i < count; i += 2) commands[words[i]] = words[i + 1]
    count = split("six 6 seven 7 ten 10 thirteen 13", words, " ")
    for (i = 1; i < count; i += 2) times[words[i]] = words[i + 1]
    set_entry("clear", "/FontType 1 def")
    set_entry("clear", "/PaintType 0 def")
    set_entry("clear", "/FontMatrix [0.001 0 0 0.001 0 0] def")
    set_entry("clear", "/FontBBox {0 0 1000 1000} def")
    set_entry("clear", "/Encoding StandardEncoding def")
    set_entry("private", "/RD {string currentfile exch readstring pop} executeonly def")
    set_entry("private", "/ND {noaccess def} executeonly def")
    set_entry("private", "/NP {noaccess put} executeonly def")
    set_entry("private", "/password 5839 def")
    set_entry("private", "/MinFeature {16 16} def")
    set_entry("private", "/BlueValues [] def")
    sound = "0 500 hsbw endchar"
    set_glyph(".notdef", sound)
    set_glyph("A", sound)
    size_of_subrs = 6
    first_line = "%!PS-AdobeFont-1.0: T"
    beginning = "dup /Private 8 dict dup begin"
}
/^   / {
    text = " " spread(substr($0, 4))
    if (label ~ /^Subr /) subr[substr(label, 6)] = subr[substr(label, 6)] text
    else glyph[label] = glyph[label] text
    next
}
/^% .* without \// { remove($NF); next }
/^%!/ { first_line = $0; next }
/^blank-/ { sub(/^blank-/, " ") }
/^Subr [0-9]+: / { label = "Subr " $2 + 0; set_subr($2 + 0, spread(substr($0, length($1 $2) + 3))); next }
/^ ?[^\/ ]+: / { label = substr($0, 1, index($0, ":") - 1); set_glyph(label, spread(substr($0, index($0, ":") + 2))); next }
/^\/[^ ]+ [0-9]+ RD … ND$/ {
    if (!listed) { glyphs = 0; split("", glyph) }
    listed = 1
    # A name that comes twice is another glyph here.
    names[++glyphs] = substr($1, 2)
    glyph[names[glyphs]] = $2 < 4 ? $2 " bytes" : sound
    next
}
/^\/Subrs [0-9]+ array$/ { size_of_subrs = $2; next }
/^dup [0-9]+ [0-9]+ RD … NP$/ { set_subr($2, "return"); next }
/^dup [0-9]+ \/[^ ]+ put$/ { rows = rows $0 "\n"; next }
/^\// {
    where = /% in the clear text$/ || (!/% in Private$/ && $1 ~ /^\/(version|FontType|PaintType|UniqueID|Encoding|FontMatrix|FontBBox|XUID)$/) ? "clear" : "private"
    sub(/ +%.*/, "")
    # One that is later in the line takes the place of the empty one, too.
    if (/ \/BlueValues/) remove("/BlueValues")
    set_entry(where, spread($0))
    given[where, $1] = 1
    next
}
/^dup \/[^ ]+ [0-9]+ dict dup begin$/ { beginning = $0; next }
{ lines = lines with_bytes($0) "\n" }
END {
    if (rows != "") set_entry("clear", "/Encoding 256 array\n" rows "readonly def")
    printf "%s\n%s%scurrentfile eexec\n", first_line, lines, written("clear")
    begin_section()
    put_text(beginning "\n" written("private"))
    put_text("/Subrs " size_of_subrs " array\n")
    for (i = 0; i <= most; i++) if (i in subr) put_charstring("dup " i, subr[i], " NP")
    put_text("ND\n2 index /CharStrings " glyphs " dict dup begin\n")
    for (i = 1; i <= glyphs; i++) put_charstring((names[i] ~ /^ / ? " /" substr(names[i], 2) : "/" names[i]), glyph[names[i]], " ND")
    put_text("end\nmark currentfile closefile\n")
    end_section()
}
