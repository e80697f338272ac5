#!/bin/sh
# Tries t1check-all where its program is killed, a signal ends the run, or the device that takes the output is full.

# shellcheck source=tests/tools/common.sh
. "$(dirname "$0")/common.sh"

for font in first second; do
    cp "$fonts/F01.pfb" "$font.pfb"
done

# The end of a program that is killed is its script's own, and what it wrote before stays.
stand_in <<'END'
#!/bin/sh
"$checker" "$@" >given
head -n 1 given
kill -s KILL $$
END
wanted <<'END'
first.pfb: 1: font file 0 F01 no end segment
137
--
END
# shellcheck disable=SC2016
try 'the program is killed' 0 sh -c 'exec 2>/dev/null; "$0" -q first.pfb second.pfb; echo $?' "$stand/bin/t1check-all"

# A document isn't closed as if all fonts had their place in it, and known faults are as they were. The document is longer than a pipe takes in;
# who reads the pipe takes a byte, sends the signal, and takes the rest once the run has ended.
echo '1 C05 glyph A elsewhere.pfb' >known
echo 'A 20000' | make_font many.pfa
mkfifo pipe
# shellcheck disable=SC2016
limited sh -c '{
    dd bs=1 count=1 2>/dev/null
    read -r main <"$0/main"
    kill -s TERM "$main"
    while kill -0 "$main" 2>/dev/null; do sleep 1; done
    cat
} <pipe >given' "$scratch" &
limited sh -c "echo \$\$ >'$scratch/main'
    exec '$all' -q --format sarif --baseline known --update-baseline first.pfb many.pfa" >pipe 2>/dev/null
status=$?
wait
if [ "$status" -eq 143 ] && [ -s given ] && [ -n "$(tail -c 1 given)" ]; then
    pass
else
    fail "TERM in a document: status $status, $(tail -c 60 given)"
fi
wanted <<'END'
1 C05 glyph A elsewhere.pfb
--
END
try 'known faults of a run that was ended' 0 cat known

if [ -c /dev/full ]; then
    for words in '' '--format jsonl' '--format sarif' '--format github' '--format junit' '--columns 80'; do
        # shellcheck disable=SC2086
        limited "$all" -q $words glyphs.pfb edge.pfb 2>given >/dev/full
        given=$?
        if [ "$given" -eq 3 ] && grep -qx 't1check-all: write failed' given; then
            pass
        else
            fail "a full device, $words: status $given, $(cat given)"
        fi
    done
else
    echo 'skipped: a full device, since there is no /dev/full'
fi

# A reader that goes away ends the run, and isn't taken for all that was reported.
# shellcheck disable=SC2016
limited sh -c '{ "$0" -q many.pfa 2>told; echo $? >ended; } | head -n 1 >taken' "$all"
wanted <<'END'
many.pfa: 1: glyph A - 4 P03 closepath without a path
t1check-all: write failed
3
--
END
try 'a reader that goes away' 0 cat taken told ended

finish
