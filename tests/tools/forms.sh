#!/bin/sh
# Tries the forms that t1check-all writes its lines in, for other programs: --format jsonl, sarif and github.

# shellcheck source=tests/tools/common.sh
. "$(dirname "$0")/common.sh"

find_reader

# Names have what each form writes in another way: a backslash, bytes below 32, letters beyond ASCII, and what parts the properties of a
# command.
named=$scratch/named
mkdir "$named"
cp "$fonts/F01.pfb" "$named/100%, a:b.pfb"
cp "$fonts/F01.pfb" "$named/$(printf 'e\303\251\033.pfb')"
cp "$fonts/F01.pfb" "$named/$(printf 'return\r.pfb')"
cd "$odd" || exit 1
wanted <<'END'
{"code":"H02","file":"-dash/-x.pfb","level":"should","name":"A","number":1,"path":[],"step":9,"text":"stems overlap","unit":"glyph"}
{"code":"K02","file":"a=b.t1","level":"must","name":"C","number":1,"path":[],"step":9,"text":"seac code not in StandardEncoding","unit":"glyph"}
{"code":"F01","file":"back\\\\slash.pfb","index":0,"key":"file","level":"should","number":1,"text":"no end segment","unit":"font"}
{"code":"E03","file":"cut.pfa","level":"must","text":"segment cut short","unit":"refused"}
{"code":"H02","file":"q'\"uote.PFB","level":"should","name":"A","number":1,"path":[],"step":9,"text":"stems overlap","unit":"glyph"}
{"code":"Z05","file":"sub folder/deep/two words.pfb","index":4,"key":"BlueValues","level":"should","number":1,"text":"zones too near","unit":"font"}
{"file":"missing.pfb","text":"read failed: no such file or folder","unit":"unchecked"}
--
missing.pfb: t1check: read failed: no such file or folder
7 fonts: 0 clean, 5 with faults, 1 refused, 1 not checked
      2 H02 stems overlap (should)
      1 F01 no end segment (should)
      1 K02 seac code not in StandardEncoding (must)
      1 Z05 zones too near (should)
END
try 'a folder as jsonl' 3 "$all" --format jsonl . missing.pfb
cp "$scratch/out" "$scratch/odd.jsonl"
wanted <<'END'
::warning file=-dash/-x.pfb,line=1,title=H02 stems overlap::H02 stems overlap × 1: A
::error file=a=b.t1,line=1,title=K02 seac code not in StandardEncoding::K02 seac code not in StandardEncoding × 1: C
::warning file=back\slash.pfb,line=1,title=F01 no end segment::F01 no end segment × 1: file
::error file=cut.pfa,line=1,title=E03 segment cut short::refused: E03 segment cut short
::warning file=q'"uote.PFB,line=1,title=H02 stems overlap::H02 stems overlap × 1: A
::warning file=sub folder/deep/two words.pfb,line=1,title=Z05 zones too near::Z05 zones too near × 1: BlueValues
::error file=missing.pfb,line=1,title=not checked::t1check: read failed: no such file or folder
--
missing.pfb: t1check: read failed: no such file or folder
END
try 'a folder as commands' 3 "$all" -q . --format=github missing.pfb
wanted <<END
{"code":"F01","file":"100%, a:b.pfb","index":0,"key":"file","level":"should","number":1,"text":"no end segment","unit":"font"}
{"code":"F01","file":"$(printf 'e\303\251')\\\\x1B.pfb","index":0,"key":"file","level":"should","number":1,"text":"no end segment","unit":"font"}
{"code":"F01","file":"return\\\\x0D.pfb","index":0,"key":"file","level":"should","number":1,"text":"no end segment","unit":"font"}
--
END
try 'odd names as jsonl' 1 sh -c "cd '$named' && '$all' -q --format jsonl ."
wanted <<'END'
::warning file=100%25%2C a%3Ab.pfb,line=1,title=F01 no end segment::F01 no end segment × 1: file
::warning file=return%0D.pfb,line=1,title=F01 no end segment::F01 no end segment × 1: file
--
END
try 'odd names as commands' 1 sh -c "cd '$named' && '$all' -q --format github 100* ret*"

wanted <<'END'
2.1.0 t1check false 1 listed
H02 warning
K02 error
F01 warning
E03 error
H02 warning
Z05 warning
--
missing.pfb: t1check: read failed: no such file or folder
END
try_document 'a folder as sarif' 3 "$all" -q --format sarif . missing.pfb
limited "$all" -q --format sarif --docs https://example.org/RULES.md . >"$scratch/docs.sarif"
wanted <<'END'
7
--
END
if [ -n "$reader" ]; then
    try 'jsonl by a parser' 0 sh -c "'$reader' '$scratch/read' '$scratch/odd.jsonl' lines | grep -c '^[0-6]\.unit '"
    # Where the rules' pages are is written for each rule, with --docs alone.
    wanted <<'END'
--
END
    try 'no pages of rules' 1 grep helpUri "$scratch/values"
    "$reader" "$scratch/read" "$scratch/docs.sarif" >"$scratch/values"
    sed -n 's/^\.runs\.0\.tool\.driver\.rules\.[0-9]*\.id "\([A-Z0-9]*\)"$/\1/p' "$scratch/values" >"$scratch/codes"
    while read -r code; do
        printf 'https://example.org/RULES.md#%s\n' \
            "$(sed -n "s/^### \($code .*\)/\1/p" "$top/docs/RULES.md" | tr 'A-Z ' 'a-z-' | tr -cd 'a-z0-9_\n-')"
    done <"$scratch/codes" >"$scratch/anchors"
    sed -n 's/^\.runs\.0\.tool\.driver\.rules\.[0-9]*\.helpUri "\(.*\)"$/\1/p' "$scratch/values" >"$scratch/pages"
    try 'pages of rules' 0 diff "$scratch/anchors" "$scratch/pages"
    wanted <<'END'
https://example.org/RULES.md#k02-seac-code-not-in-standardencoding
https://example.org/RULES.md#e03-segment-cut-short
--
END
    try 'pages of two of them' 0 grep -e '#e03-' -e '#k02-' "$scratch/pages"
fi
# Each rule's help is its page as t1_pages has it, whose texts are escaped as in JSON.
sed 's/{"defaultConfiguration":{"level":"[a-z]*"},/\
/g' "$scratch/docs.sarif" | sed '1d; s/}}\],"version".*/}}/; s/,$//' >"$scratch/pages"
awk '
    match($0, /^    [a-z]*: "/) { page[substr($0, 5, RLENGTH - 7)] = substr($0, RLENGTH, length($0) - RLENGTH) }
    /^};/ {
        sub(/^"/, "", page["anchor"])
        printf "\"help\":{\"markdown\":%s,\"text\":%s},\"helpUri\":\"https://example.org/RULES.md#%s,\"id\":%s,\"shortDescription\":{\"text\":%s}}\n", \
            page["text"], page["text"], page["anchor"], page["code"], page["title"]
    }
' "$top/crates/t1_pages/src/lib.rt" >"$scratch/helps"
wanted <<'END'
--
END
try 'the page of each rule' 0 diff "$scratch/helps" "$scratch/pages"
cd "$scratch" || exit 1

# Where nothing is reported, or a part of the list has no font, a document is written and nothing else.
wanted <<'END'
--
END
for form in jsonl github; do
    try "nothing as $form" 0 "$all" -q --format "$form" --only L01 glyphs.pfb
    try "an empty shard as $form" 0 "$all" --format "$form" --shard 1/2 glyphs.pfb
    try "known faults are written, with $form" 0 "$all" -q --baseline now --update-baseline --format "$form" glyphs.pfb
done
wanted <<'END'
2.1.0 t1check true 0 listed
--
END
try_document 'nothing as sarif' 0 "$all" -q --format sarif --only L01 glyphs.pfb
try_document 'an empty shard as sarif' 0 "$all" --format sarif --shard 1/2 glyphs.pfb
try_document 'known faults are written, with sarif' 0 "$all" -q --format sarif --baseline now --update-baseline glyphs.pfb
wanted <<'END'
{"code":"Z07","file":"glyphs.pfb","index":1,"key":"BlueValues","level":"should","number":1,"text":"zone too high for BlueScale","unit":"font"}
{"code":"Z01","file":"glyphs.pfb","index":0,"key":"StdHW","level":"must","number":2,"text":"value of another kind","unit":"font"}
--
t1check-all: lines of a font itself can not be waived
END
try 'waivers are written, with jsonl' 1 "$all" -q --write-waivers --format jsonl glyphs.pfb
echo 'A H02' >glyphs.pfb.waivers
wanted <<'END'
{"code":"U01","file":"glyphs.pfb","level":"should","name":"A","number":6,"text":"waiver not used","unit":"waiver","waived":"H02"}
--
END
try 'a waiver that is not used, as jsonl' 1 "$all" -q --only U01 --format jsonl glyphs.pfb
rm -f glyphs.pfb.waivers

# A glyph's name may hold what JSON writes in another way, and bytes that are no text. A path has each Subr.
printf ' 1\na"\\b 1\n\303\251\033\177 1\n\303\251\377 1\n' | make_font names.pfa
wanted <<END
{"code":"P03","file":"names.pfa","level":"tidy","name":"","number":1,"path":[],"step":4,"text":"closepath without a path","unit":"glyph"}
{"code":"P03","file":"names.pfa","level":"tidy","name":"a\\"\\\\\\\\b","number":2,"path":[],"step":4,"text":"closepath without a path","unit":"glyph"}
{"code":"P03","file":"names.pfa","level":"tidy","name":"$(printf '\303\251')\\\\x1B\\\\x7F","number":3,"path":[],"step":4,"text":"closepath without a path","unit":"glyph"}
{"code":"P03","file":"names.pfa","level":"tidy","name":"\\\\xC3\\\\xA9\\\\xFF","number":4,"path":[],"step":4,"text":"closepath without a path","unit":"glyph"}
--
END
try 'odd names of glyphs as jsonl' 1 "$all" -q --format jsonl names.pfa
cp "$fonts/L01.pfb" limit.pfb
wanted <<'END'
{"code":"L01","file":"limit.pfb","level":"must","name":"A","number":1,"path":[5,4,3,2,1],"step":100001,"text":"step limit","unit":"glyph"}
--
END
try 'a path of Subrs as jsonl' 1 "$all" -q --format jsonl --only L01 limit.pfb
if [ -n "$reader" ]; then
    cp "$scratch/out" path.jsonl
    wanted <<'END'
0.path.0 5
0.path.1 4
0.path.2 3
0.path.3 2
0.path.4 1
--
END
    try 'Subrs by a parser' 0 sh -c "'$reader' '$scratch/read' path.jsonl lines | grep '^0\.path'"
fi

# A document of SARIF, a line a result: its place, its text, and the fingerprint that stays the same from run to run. The document's rules,
# and each result's place among them, are compared elsewhere.
mkdir units
cp limit.pfb "$fonts/F01.pfb" units/
cp "$fonts/E03.bin" units/cut.pfb
printf 'A 2\nB 1\n' | make_font 'units/a b%.pfb'
echo 'A H02' >'units/a b%.pfb.waivers'
cat >"$scratch/all_units" <<'END'
cd units && exec "$1" -q --format sarif --only F01,P03,L01,U01 'a b%.pfb' F01.pfb limit.pfb cut.pfb missing.pfb
END
cat >"$scratch/split.awk" <<'END'
{
    sub(/"rules":\[.*\],"version"/, "\"rules\":[],\"version\"")
    gsub(/"ruleIndex":[0-9]+/, "\"ruleIndex\":N")
    gsub(/[{]"level"/, "\n&")
    print
}
END
wanted <<'END'
{"$schema":"https://json.schemastore.org/sarif-2.1.0.json","version":"2.1.0","runs":[{"tool":{"driver":{"name":"t1check","rules":[],"version":"1.0.0"}},"results":[
{"level":"note","locations":[{"logicalLocations":[{"kind":"glyph","name":"A"},{"kind":"step","name":"4"}],"physicalLocation":{"artifactLocation":{"uri":"a%20b%25.pfb"},"region":{"startLine":1}}}],"message":{"text":"glyph A - 4 P03 closepath without a path"},"partialFingerprints":{"t1check/v1":"a b%.pfb glyph A P03 1"},"ruleId":"P03","ruleIndex":N},
{"level":"note","locations":[{"logicalLocations":[{"kind":"glyph","name":"A"},{"kind":"step","name":"5"}],"physicalLocation":{"artifactLocation":{"uri":"a%20b%25.pfb"},"region":{"startLine":1}}}],"message":{"text":"glyph A - 5 P03 closepath without a path"},"partialFingerprints":{"t1check/v1":"a b%.pfb glyph A P03 2"},"ruleId":"P03","ruleIndex":N},
{"level":"note","locations":[{"logicalLocations":[{"kind":"glyph","name":"B"},{"kind":"step","name":"4"}],"physicalLocation":{"artifactLocation":{"uri":"a%20b%25.pfb"},"region":{"startLine":1}}}],"message":{"text":"glyph B - 4 P03 closepath without a path"},"partialFingerprints":{"t1check/v1":"a b%.pfb glyph B P03 1"},"ruleId":"P03","ruleIndex":N},
{"level":"warning","locations":[{"logicalLocations":[{"kind":"waiver","name":"A"},{"kind":"rule","name":"H02"}],"physicalLocation":{"artifactLocation":{"uri":"a%20b%25.pfb"},"region":{"startLine":1}}}],"message":{"text":"waiver A H02 U01 waiver not used"},"partialFingerprints":{"t1check/v1":"a b%.pfb waiver A H02 U01 1"},"ruleId":"U01","ruleIndex":N},
{"level":"warning","locations":[{"logicalLocations":[{"kind":"key","name":"file"},{"kind":"index","name":"0"}],"physicalLocation":{"artifactLocation":{"uri":"F01.pfb"},"region":{"startLine":1}}}],"message":{"text":"font file 0 F01 no end segment"},"partialFingerprints":{"t1check/v1":"F01.pfb font file F01 1"},"ruleId":"F01","ruleIndex":N},
{"level":"error","locations":[{"logicalLocations":[{"kind":"glyph","name":"A"},{"kind":"subr","name":"5"},{"kind":"subr","name":"4"},{"kind":"subr","name":"3"},{"kind":"subr","name":"2"},{"kind":"subr","name":"1"},{"kind":"step","name":"100001"}],"physicalLocation":{"artifactLocation":{"uri":"limit.pfb"},"region":{"startLine":1}}}],"message":{"text":"glyph A 5>4>3>2>1 100001 L01 step limit"},"partialFingerprints":{"t1check/v1":"limit.pfb glyph A L01 1"},"ruleId":"L01","ruleIndex":N},
{"level":"error","locations":[{"physicalLocation":{"artifactLocation":{"uri":"cut.pfb"},"region":{"startLine":1}}}],"message":{"text":"refused: E03 segment cut short"},"partialFingerprints":{"t1check/v1":"cut.pfb refused E03 1"},"ruleId":"E03","ruleIndex":N}],"invocations":[{"executionSuccessful":false,"toolExecutionNotifications":[
{"level":"error","locations":[{"physicalLocation":{"artifactLocation":{"uri":"missing.pfb"},"region":{"startLine":1}}}],"message":{"text":"t1check: read failed: no such file or folder"}}]}]}]}
--
missing.pfb: t1check: read failed: no such file or folder
END
# shellcheck disable=SC2016
try 'a document of sarif' 0 sh -c 'sh "$0/all_units" "$1" | awk -f "$0/split.awk"' "$scratch" "$all"
wanted <<'END'
2.1.0 t1check false 1 listed
P03 note
P03 note
P03 note
U01 warning
F01 warning
L01 error
E03 error
--
missing.pfb: t1check: read failed: no such file or folder
END
try_document 'each unit as sarif' 3 sh "$scratch/all_units" "$all"

# What a document says of each rule and refusal: its heading in docs/RULES.md, its level, and its page as text and as markdown.
cat >"$scratch/rules.awk" <<'AWK'
index($1, ".runs.0.tool.driver.rules.") == 1 {
    value = substr($0, length($1) + 2)
    gsub(/^"|"$/, "", value)
    split($1, way, ".")
    key = way[8] (way[9] == "" ? "" : "." way[9])
    rules = way[7] + 1
    said[way[7], key] = value
}
END {
    for (i = 0; i < rules; i++) {
        text = said[i, "shortDescription.text"]
        help = said[i, "help.text"]
        is_page = help == said[i, "help.markdown"] && length(help) > length(text)
        print said[i, "id"], text, said[i, "defaultConfiguration.level"], (is_page ? "page" : "no page")
    }
}
AWK
awk -F ' *[|] *' '
    BEGIN { word["must"] = "error"; word["should"] = "warning"; word["tidy"] = "note" }
    /^[|] [A-Z]+[0-9][0-9] / && $4 in word { level[$2] = word[$4] }
    /^### [A-Z]+[0-9][0-9] / { split($0, words, " "); print substr($0, 5), words[2] in level ? level[words[2]] : "error", "page" }
    END { print "--" }
' "$top/docs/RULES.md" >wanted
# shellcheck disable=SC2016
[ -z "$reader" ] || try 'what sarif says of rules' 0 \
    sh -c '"$2" -q --format sarif --only L01 glyphs.pfb >rules.sarif && "$1" "$0/read" rules.sarif | awk -f "$0/rules.awk"' \
    "$scratch" "$reader" "$all"

# A rule and a key of the third edition.
cp "$fonts/F20.pfb" group.pfb
wanted <<'END'
{"code":"F20","file":"group.pfb","index":0,"key":"LanguageGroup","level":"should","number":1,"text":"LanguageGroup is not 0 or 1","unit":"font"}
--
END
try 'a rule of edition 3 as jsonl' 1 "$all" -q --edition 3 --format jsonl group.pfb
wanted <<'END'
::warning file=group.pfb,line=1,title=F20 LanguageGroup is not 0 or 1::F20 LanguageGroup is not 0 or 1 × 1: LanguageGroup
--
END
try 'a rule of edition 3 as a command' 1 "$all" -q --edition 3 --format github group.pfb
wanted <<'END'
2.1.0 t1check true 0 listed
F20 warning
--
END
try_document 'a rule of edition 3 as sarif' 1 "$all" -q --edition 3 --format sarif group.pfb
wanted <<'END'
group.pfb: 1: font LanguageGroup 0 F20 LanguageGroup is not 0 or 1
--
1 font: 0 clean, 1 with faults, 0 refused, 0 not checked
      1 F20 LanguageGroup is not 0 or 1 (should)
END
try 'a rule of edition 3 as lines' 1 "$all" --edition 3 group.pfb

# Of fonts that were not checked a run of SARIF names a thousand, then the next run begins.
cat >"$scratch/runs.awk" <<'AWK'
$1 ~ /^\.runs\.[0-9]+\..*\.uri$/ {
    split($1, way, ".")
    part = way[3] " " way[4]
    if (part != last) {
        if (last != "") print last, count, first, file
        last = part
        first = $2
        count = 0
    }
    file = $2
    count++
}
END { print last, count, first, file }
AWK
cp "$fonts/F01.pfb" a.pfb
cp "$fonts/F01.pfb" b.pfb
{
    echo a.pfb
    awk 'BEGIN { for (i = 1; i <= 1001; i++) print i ".pfb" }'
    echo b.pfb
} >names
limited "$all" -q --format sarif --files-from names >many.sarif 2>/dev/null
wanted <<'END'
0 results 1 "a.pfb" "a.pfb"
0 invocations 1000 "1.pfb" "1000.pfb"
1 results 1 "b.pfb" "b.pfb"
1 invocations 1 "1001.pfb" "1001.pfb"
--
END
# shellcheck disable=SC2016
[ -z "$reader" ] || try 'a thousand and one fonts that were not checked' 0 \
    sh -c '"$1" "$0/read" many.sarif | awk -f "$0/runs.awk"' "$scratch" "$reader"

# What has no name in lines, and what was not even found, is in the form, too.
wanted <<'END'
{"code":"Z05","file":"one.pfb","index":4,"key":"BlueValues","level":"should","number":1,"text":"zones too near","unit":"font"}
{"file":"two\\x0Alines.pfb","text":"its name has a line end","unit":"unchecked"}
--
two\nlines.pfb: t1check: its name has a line end
END
try 'a name with a line end, as jsonl' 3 sh -c "cd '$lines' && '$all' -q --format jsonl ."
wanted <<'END'
{"code":"Z05","file":"one.pfb","index":4,"key":"BlueValues","level":"should","number":1,"text":"zones too near","unit":"font"}
{"file":"two\\x0Alines.pfb","text":"its name has a line end","unit":"unchecked"}
{"code":"H02","file":"../edge.pfb","level":"should","name":"A","number":1,"path":[],"step":9,"text":"stems overlap","unit":"glyph"}
--
two\nlines.pfb: t1check: its name has a line end
END
try 'a name with a line end, as jsonl' 3 sh -c "cd '$lines' && '$all' -q --format jsonl . ../edge.pfb"
wanted <<'END'
{"file":".","text":"search failed","unit":"unchecked"}
{"code":"Z05","file":"one.pfb","index":4,"key":"BlueValues","level":"should","number":1,"text":"zones too near","unit":"font"}
--
.: t1check: search failed
END
try "a name below a folder that isn't UTF-8, as jsonl" 3 sh -c "cd '$bytes' && '$all' -q --format jsonl ."
wanted <<'END'
{"text":"a name that is not UTF-8 is passed over","unit":"unchecked"}
{"code":"Z05","file":"one.pfb","index":4,"key":"BlueValues","level":"should","number":1,"text":"zones too near","unit":"font"}
{"file":"two\\x0Alines.pfb","text":"its name has a line end","unit":"unchecked"}
--
t1check-all: a name that is not UTF-8 is passed over
two\nlines.pfb: t1check: its name has a line end
END
# shellcheck disable=SC2016
try "a word that isn't UTF-8, and a name with a line end, as jsonl" 3 \
    sh -c 'cd "$1" && "$0" -q --format jsonl "$(printf "b\377d.pfb")" .' "$all" "$lines"

# Shards in a form: one after another they are the whole, of which each line has one.
limited "$all" -q "$fonts" >whole 2>/dev/null
limited "$all" -q --format jsonl "$fonts" >whole.jsonl 2>/dev/null
: >joined
for part in 1 2 3 4; do
    limited "$all" -q --format jsonl --shard "$part/4" "$fonts" >>joined 2>/dev/null
done
wanted <<'END'
--
END
try 'shards as jsonl' 0 cmp whole.jsonl joined
[ "$(wc -l <whole.jsonl)" -eq "$(wc -l <whole)" ] || fail 'shards as jsonl: not an object a line'

finish
