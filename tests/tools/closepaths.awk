# Writes the font of make_font in common.sh, after eexec.awk.

# hsbw 0 500, the faults, endchar.
function put_glyph(name, faults) {
    put_text("/" name " " faults + 5 " RD ")
    put(139); put(248); put(136); put(13)
    while (faults-- > 0) put(9)
    put(14)
    put_text(" ND\n")
}
BEGIN {
    print "%!PS-AdobeFont-1.0: T\n/FontType 1 def\n/PaintType 0 def\n/Encoding StandardEncoding def\ncurrentfile eexec"
    begin_section()
    put_text("dup /Private 8 dict dup begin\n/password 5839 def\n/MinFeature {16 16} def\n/lenIV -1 def\n")
    put_text("2 index /CharStrings 4 dict dup begin\n")
    put_glyph(".notdef", 0)
}
{
    name = $0
    sub(/ [0-9]*$/, "", name)
    put_glyph(name, $NF)
}
END {
    put_text("end\n")
    end_section()
}
