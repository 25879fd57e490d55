# Headers of eight bytes and of ten: widen and narrow.
# shellcheck shell=bash

begin_forms() {
    begin
    eight=$(old_header "$header") ten=$header
    bytes "$eight" >old
    bytes "$ten" >new
}

test_forms() {
    begin_forms
    run 0 widen old out
    same 'what widen prints' '' "$(out)"
    alike 'a header of ten bytes' new out
    logged "$said/err" "widen eight=$eight ten=$ten answer=0 place=0 status=0"
    has 'its names in the log' " eight-file=old ten=$ten ten-file=out " "$err"
    run 0 narrow -f new out
    alike 'a header of eight bytes' old out
    logged "$said/err" "narrow eight=$eight ten=$ten answer=0 place=0 status=0"
    has 'its names in the log' " eight-file=out ten=$ten ten-file=new " "$err"
    run 0 write -f new "$marker" frames out
    alike 'slots under the header that was made' slots out
    local text
    for text in "$eight" "${eight,,}" "hex:$eight" "0x$eight" '50:15:7A:3E:82:83:00:00' ./old; do
        rm -f out
        run 0 -q widen "$text" out
        alike "the header from $text" new out
    done
    run 0 --log log widen -f "$eight" out
    has 'text has no file' " eight-file=- ten=$ten ten-file=out " "$(tail -n 1 log)"
    run 0 widen - - <old
    alike 'through standard files' new "$said/out"
    run 0 narrow - /dev/stdout <new
    alike 'and back' old "$said/out"
    "$mahyrei" -q widen old - | "$mahyrei" -q narrow - - | cmp -s - old
    same 'status of each program in a row' '0 0 0' "${PIPESTATUS[*]}"
    local each
    for each in 5950F01BE8020000 21FDFF0010400000 0804020020810000 5004021BE1010000 9C05FEFFEFBF0000; do
        bytes "$each" >one
        run 0 -q widen -f one two
        alike "$each in ten bytes" <(bytes "${each:0:12}04000000") two
        run 0 -q narrow -f two three
        alike "$each again" one three
    done
    # Over itself: read whole before it is written.
    cp old over
    chmod 604 over
    run 0 -q widen -f over over
    alike 'a header over itself' new over
    same 'its mode' 604 "$(stat -c %a over)"
    run 0 -q narrow -f over over
    alike 'and back' old over
}

test_forms_refused() {
    begin_forms
    local h
    for h in "${eight:0:14}" "${eight}00" "$ten" "${eight:0:15}1" "${eight:0:12}8000" 00 hex:; do
        refused 1 0 widen "$h" out
    done
    for h in "${ten:0:18}" "${ten}00" "$eight" "${ten:0:19}1" "${ten:0:12}05000000" 00 hex:; do
        refused 1 0 narrow "$h" out
    done
    refused 1 0 widen empty out
    refused 1 0 narrow /dev/zero out
    local fields number
    for fields in '3 4 5 189 500 5 3=2' '1 9 5 189 500 5 3=3' '1 4 0 189 500 5 3=4' \
        '1 4 5 257 500 5 3=4' '1 4 2 189 500 5 3=5' '1 4 5 189 0 5 3=6' '1 4 5 189 500 5 65=6' \
        '1 4 5 189 500 33 3=7' '1 4 5 189 500 0 3=7'; do
        number=${fields#*=}
        # shellcheck disable=SC2086  # several words are meant
        h=$(header ${fields%=*})
        refused "$number" 0 widen "$(old_header "$h")" out
        refused "$number" 0 narrow "$h" out
        refused "$number" 0 narrow "${h:0:12}14000000" out # before the factor
        refused "$number" 0 narrow "${h:0:12}08000000" out
    done
    for h in 00 14 84 FC; do
        refused 20 0 narrow "${ten:0:12}${h}000000" out
    done
    for h in 08 0C 10 20 40 80; do
        refused 21 0 narrow "${ten:0:12}${h}000000" out
    done
    run 1 --log log narrow "${ten:0:12}08000000" out
    logged log "narrow eight=- ten=${ten:0:12}08000000 answer=21 place=0 status=1"
    run 1 --log log widen "${eight}000000" out
    logged log "widen eight=${eight}000000 ten=- answer=1 place=0 status=1"
    says "$ten: the header has 10 bytes, and needs 8" widen "$ten" out
    says "standard input: the header has 11 bytes or more, and needs 8" widen - out </dev/zero
    says "${eight:0:15}1: the last 16 bits of the header are 0001" widen "${eight:0:15}1" out
    says "$eight: the header has 8 bytes, and needs 10" narrow "$eight" out
    same 'no word of widen to narrow' '' "$(grep 'mahyrei widen' "$said/err")"
    says "${ten:0:19}1: the last 26 bits of the header are 0000001" narrow "${ten:0:19}1" out
    says "$(old_header "$(header 1 4 2 189 500 5 3)"): N is 2, B is 189, and S is 3780" \
        widen "$(old_header "$(header 1 4 2 189 500 5 3)")" out
    says "${ten:0:12}14000000: copies is 5" narrow "${ten:0:12}14000000" out
    says "${ten:0:12}08000000: copies is 2" narrow "${ten:0:12}08000000" out
    says "$(old_header "$(header 1 4 5 189 500 5 65)"): A is 65" \
        widen "$(old_header "$(header 1 4 5 189 500 5 65)")" out
}

# Whoever lends an old header to another subcommand is told what to do.
test_old_headers() {
    begin_forms
    local hint='a header of eight bytes, as up to version 0.3, becomes one of ten by '
    # shellcheck disable=SC2016  # no substitution is meant
    hint+='`mahyrei widen OLD NEW`'
    says "$eight: $hint" write "$eight" "$marker" frames out
    says "old: $hint" read old "$marker" slots out
    says "standard input: $hint" verify - "$marker" slots <old
    says "old: $hint" find old "$marker" slots
    says "old: $hint" cut old slots 0 out
    says "old: $hint" read --capture old "$marker" slots out
    says "old: $hint" sheet old
    says "old: $hint" inspect old "$marker" slots
    says "old: $hint" show old slots 0 1
    refused 1 0 write "$eight" "$marker" frames out
    printf 'write\told\t%s\tframes\tout\n' "$marker" >list
    run 1 batch list
    has 'the hint in the results of a list' 'mahyrei widen OLD NEW' "$(<list.results)"
    run 1 write "${eight:0:14}" "$marker" frames out
    same 'no such word to a header of seven bytes' '' "$(grep 'mahyrei widen' "$said/err")"
    run 1 write "${ten}00" "$marker" frames out
    same 'nor to one of eleven' '' "$(grep 'mahyrei widen' "$said/err")"
}

test_forms_usage() {
    begin_forms
    unharmed 2 'number of operands' widen
    unharmed 2 'number of operands' widen old
    unharmed 2 'operand too many' narrow new out out
    unharmed 2 'long: this command has no such option' widen --long old out
    unharmed 2 'none: No such file' widen none out
    unharmed 2 'directory: Is a directory' narrow directory out
    unharmed 2 'directory: Is a directory' widen old directory
    unharmed 2 'two digits for each byte' widen "${eight}0" out
    cp old cafe
    unharmed 2 'hexadecimal text and also a file here' widen cafe out
    run 2 --log log widen none out
    logged log 'widen eight=- ten=- answer=- place=- status=2'
    run 2 --log log narrow new none/out
    logged log 'narrow eight=- ten=- answer=- place=- status=2'
    cp old kept
    run 2 --log old widen old out
    has 'the header as log' 'old: this is the log' "$err"
    run 2 --log out widen old out
    has 'the output as log' 'out: this is the log' "$err"
    alike 'the header after that' kept old
    same 'no output then' no "$([ -e out ] && echo yes || echo no)"
    echo there >out
    run 2 -n widen old out
    has 'a file that is not to be replaced' 'out: this file already exists' "$err"
    same 'that file' there "$(<out)"
    local forged=$'old\n2026-11-15T16:50:01Z widen answer=0 place=0 status=0'
    cp old "$forged"
    run 0 widen -f "$forged" out
    same 'lines about a name of two lines' 1 "$(wc -l <"$said/err")"
    logged "$said/err" "widen eight=$eight ten=$ten answer=0 place=0 status=0"
    run 1 narrow -f "$forged" out
    same 'lines of a refusal about it' 3 "$(wc -l <"$said/err")"
    ln -s out link
    run 0 widen -f old link
    same 'a link stays a link' out "$(readlink link)"
    alike 'the file that a link leads to' new out
    run 2 widen old /dev/full
    has 'a full device' '/dev/full: No space left on device' "$err"
    "$mahyrei" widen old - 2>"$said/err" >/dev/full
    same 'status with a full standard output' 2 $?
    "$mahyrei" narrow new - 2>/dev/null >&-
    same 'status with standard output closed' 2 $?
    run 0 -q widen -f old out
    same 'what a quiet trip says' '' "$err"
}

once_forms_faults() {
    begin_forms
    local fault
    for fault in read:1:5 write:1:28 write:1:5 fsync:1:5 close:1:5 rename:1:5; do
        prefix=(env "LD_PRELOAD=$faults" "FAULT=$fault")
        unharmed 2 'mahyrei: ' widen old out
        unharmed 2 'mahyrei: ' narrow new out
    done
    prefix=(env "LD_PRELOAD=$faults" FAULT=noreplace:1:5)
    rm -f out
    run 2 -n widen old out
    same 'no output where the new name cannot be taken' no "$([ -e out ] && echo yes || echo no)"
    prefix=(env "LD_PRELOAD=$faults" FAULT=thread:1:11)
    unharmed 2 'a stack of 4 MiB for the library: ' widen old out
    unharmed 2 'a stack of 4 MiB for the library: ' narrow new out
    prefix=(env "LD_PRELOAD=$faults" FAULT=slow)
    run 0 widen - - < <(cat old)
    alike 'a header, bit by bit' new "$said/out"
    prefix=(bash -c 'ulimit -s 64; exec "$@"' bash)
    run 0 -q widen old out
    alike 'a header on a stack of 64 KiB' new out
    run 0 -q narrow -f new out
    alike 'and back' old out
    prefix=()
    if command -v script >"$said/out"; then
        script -qec "$mahyrei -q widen old -" /dev/null </dev/null >"$said/out"
        same 'status with a terminal' 2 $?
        has 'bytes for a terminal' 'this is a terminal' "$(out)"
    else
        echo 'command: no script(1) here; no header goes to a terminal'
    fi
}

# Nothing half written has the output's name, and no signal but SIGKILL leaves anything behind.
once_forms_signals() {
    begin_forms
    local signal temporary held status words
    echo there >out
    for signal in INT TERM HUP SEGV KILL; do
        for words in 'widen old' 'narrow new'; do
            : >hold
            rm -f .mahyrei.*
            # shellcheck disable=SC2016,SC2086  # the inner shell expands it; several words
            env --default-signal env "LD_PRELOAD=$faults" FAULT=hold \
                bash -c 'ulimit -c 0; exec "$@"' bash "$mahyrei" --log /dev/null --force $words out \
                2>/dev/null &
            held=$! temporary=''
            while [ ! -s "$temporary" ] && kill -0 "$held" 2>/dev/null; do
                for temporary in .mahyrei.*; do :; done
            done
            kill -s "$signal" "$held"
            wait "$held" 2>/dev/null
            status=$?
            same "status after signal $signal" "$signal" "$(kill -l "$status")"
            same "output after signal $signal" there "$(<out)"
            [ "$signal" != KILL ] || rm .mahyrei.*
            same "what signal $signal leaves" '' "$(find . -name '.mahyrei*')"
        done
    done
    rm hold
}
