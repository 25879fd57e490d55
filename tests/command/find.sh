# Captures that begin on any slot: find, cut, and read and verify with --capture.
# shellcheck shell=bash

# A run of 28,388 bytes from slot 13 of a capture on, with pulses around it.
begin_capture() {
    begin
    capture 13 5 1
}

# What the log has of it: of find, of cut, and of the run that was read.
searched="header=$header marker=5 frames=- slots=- capture=28395 slot=13 answer=0 place=13 status=0"
cut_out="header=$header marker=- frames=- slots=28388 capture=28395 slot=13 answer=0 place=0 status=0"
read_out="header=$header marker=5 frames=1500 slots=28388 capture=28395 slot=13 answer=0 place=0"
read_out+=' status=0'

test_any_slot() {
    begin
    local slot around
    for slot in 0 1 2 3 4 5 6 7 8 13 4711; do
        for around in 0 1; do
            capture "$slot" 3 "$around"
            run 0 -q find "$header" "$marker" capture
            same "the slot of a run at $slot among $around" "$slot" "$(out)"
            same 'what is said beside it' '' "$err"
            run 0 -q cut "$header" capture "$slot" out
            alike "the run at slot $slot among $around" slots out
            same 'what is printed beside it' '' "$(out)"
            run 0 -q read -f --capture "$header" "$marker" capture out
            alike "frames of the run at slot $slot among $around" frames out
            same 'what is said beside them' '' "$err$(out)"
            run 0 -q verify --capture "$header" "$marker" capture
            rm out
        done
    done
    # The last slot that has room, and the one after it.
    capture 8 0 0
    run 0 -q cut "$header" capture 12 out # four spare bits, and so four slots more
    refused 8 0 cut "$header" capture 13 out
}

test_find() {
    begin_capture
    run 0 find "$header" "$marker" capture
    same 'a slot' 13 "$(out)"
    logged "$said/err" "find $searched"
    run 0 find header marker - <capture
    same 'a slot of standard input' 13 "$(out)"
    run 0 find - "$marker" capture <header
    run 0 find "hex:$header" /dev/stdin capture <marker
    same 'a slot with the marker from standard input' 13 "$(out)"
    run 0 find "$header" "$marker" - < <(cat capture)
    same 'a slot through a pipe' 13 "$(out)"
    list
    local before=$names
    run 0 find "$header" "$marker" slots
    same 'a run that begins at the first slot' 0 "$(out)"
    list
    same 'files after find' "$before" "$names"
    # The first of two; and of a capture that begins within a run, the next line's marker.
    cat capture capture >twice
    run 0 find "$header" "$marker" twice
    same 'the first of two runs' 13 "$(out)"
    tail -c +101 capture >later # from slot 800 on; the second line is 3785 symbols after the first
    run 0 find "$header" "$marker" later
    same 'the second line of a run' $((13 + 3785 * 20 - 800)) "$(out)"
    # An empty capture, and one that is shorter than the marker.
    refused 19 0 find "$header" "$marker" empty
    head -c 12 slots >few
    refused 19 0 find "$header" "$marker" few
    head -c 13 slots >few
    run 0 find "$header" "$marker" few
}

test_find_refusals() {
    begin_capture
    local h
    for h in "${header:0:18}" "${header}00" "${header:0:19}1" "$(old_header "$header")" 00 hex:; do
        refused 1 0 find "$h" "$marker" capture
        refused 1 0 cut "$h" capture 13 out
        refused 1 0 read --capture "$h" "$marker" capture out
    done
    refused 2 0 find "$(header 3 4 5 189 500 5 3)" "$marker" capture
    refused 3 0 cut "$(header 1 9 5 189 500 5 3)" capture 13 out
    refused 4 0 read --capture "$(header 1 4 0 189 500 5 3)" "$marker" capture out
    refused 5 0 find "$(header 1 4 2 189 500 5 3)" "$marker" capture
    refused 6 0 cut "$(header 1 4 5 189 0 5 3)" capture 13 out
    refused 7 0 find "$(header 1 4 5 189 500 33 3)" "$marker" capture
    refused 7 0 cut "$(header 1 4 5 189 500 0 3)" capture 13 out
    refused 7 0 read --capture "$header" 0500100309 capture out
    refused 8 0 find "$header" "${marker}00" capture
    refused 8 0 find "$header" hex: capture
    refused 8 0 read --capture "$header" "${marker:0:8}" capture out
    refused 19 0 find "$header" 05000C0308 capture
    refused 19 0 read --capture "$header" 05000C0308 capture out
    refused 19 0 verify --capture "$header" "$marker" empty
    local slot
    for slot in 61 227160 18446744073709551615 18446744073709324516; do
        refused 8 0 cut "$header" capture "$slot" out
    done
    refused 8 0 cut "$header" empty 0 out
    # The run's end is missing: found, and not cut.
    head -c 28389 capture >short
    run 0 find "$header" "$marker" short
    same 'the slot of a run without its end' 13 "$(out)"
    refused 8 0 cut "$header" short 13 out
    refused 8 0 read --capture "$header" "$marker" short out
    logged "$said/err" "read header=$header marker=5 frames=- slots=- capture=28389 slot=13 \
answer=8 place=0 status=1"
    head -c 28390 capture >whole
    run 0 cut "$header" whole 13 out
    alike 'a run that ends with the capture' slots out
    rm out
    # Without --capture a capture is slots of another length.
    refused 8 0 read "$header" "$marker" capture out
}

# What read refuses, it refuses in a capture too; the places are those of the capture.
test_refused_in_capture() {
    begin
    damage lose 7000
    "$tool" "$header" capture 13 5 1 <damaged >capture
    refused 10 7000 read --capture "$header" "$marker" capture out
    says 'capture: symbol 7000 is slots 140013 to 140032, in bytes 17501 to 17504' \
        read --capture "$header" "$marker" capture out
    has 'where it began' 'mahyrei: capture: the first whole marker begins at slot 13, in byte 1' "$err"
    logged "$said/err" "read header=$header marker=5 frames=- slots=28388 capture=28395 slot=13 \
answer=10 place=7000 status=1"
    run 1 -q read --capture "$header" "$marker" capture out
    has 'where it began, quietly' 'the first whole marker begins at slot 13' "$err"
    damage turn 1 7000
    "$tool" "$header" capture 13 5 0 <damaged >capture
    refused 13 1 verify --capture "$header" "$marker" capture
    says 'standard input: word 1 has its symbols from 3790 to 11354: slots 75813 to 227112, bytes 9476 to 28389' \
        verify --capture "$header" "$marker" - <capture
    has 'where that began' 'mahyrei: standard input: the first whole marker begins at slot 13' "$err"
    # A marker by itself before the run is the one that is found, and no frames come of it.
    { head -c 13 slots && cat slots; } >decoy
    run 0 find "$header" "$marker" decoy
    same 'a marker by itself' 0 "$(out)"
    # The run is four slots further on than the decoy's symbols: its third pulse is a guard pulse.
    refused 10 7 read --capture "$header" "$marker" decoy out
    has 'what was taken for the start' 'the first whole marker begins at slot 0, in byte 0' "$err"
    run 0 cut "$header" decoy 104 out
    alike 'the run after a marker by itself' slots out
    run 0 find "$header" "$marker" - < <(tail -c +2 decoy)
    same 'the run without the byte that its decoy begins in' 96 "$(out)"
}

test_find_says_where() {
    begin_capture
    says 'capture: the capture has 227160 slots, and the marker 100' \
        find "$header" 05000C0308 capture
    says 'standard input: the capture has 0 slots, and the marker 100' \
        find "$header" "$marker" - </dev/null
    says '05: the marker'"'"'s symbols have 1 byte, and the header implies 5' \
        find "$header" 05 capture
    says '0500100309: symbol 2 of the marker is 16, and M is 16' find "$header" 0500100309 capture
    says '00: the header has 1 byte, and needs 10' cut 00 capture 13 out
    says "$(header 1 4 5 257 500 5 3): B is 257" cut "$(header 1 4 5 257 500 5 3)" capture 13 out
    says 'capture: the run has 227100 slots, and from slot 61 on the capture has 227099' \
        cut "$header" capture 61 out
    says 'capture: the run has 227100 slots, and from slot 18446744073709551615 on the capture has 0' \
        cut "$header" capture 18446744073709551615 out
    run 0 read --capture "$header" "$marker" capture out
    same 'what is said of a run that was read' 'mahyrei: capture: the run begins at slot 13, in byte 1' \
        "$(head -n 1 "$said/err")"
    same 'and that is all but the log' 2 "$(wc -l <"$said/err")"
    run 0 verify --capture "$header" "$marker" - <capture
    has 'what is said of one that was verified' \
        'mahyrei: standard input: the run begins at slot 13, in byte 1' "$err"
}

test_find_usage() {
    begin_capture
    unharmed 2 'number of operands' find "$header" "$marker"
    unharmed 2 'operand too many' find "$header" "$marker" capture out
    unharmed 2 'number of operands' cut "$header" capture 13
    unharmed 2 'operand too many' cut "$header" capture 13 out out
    unharmed 2 'number of operands' read --capture "$header" "$marker" capture
    unharmed 2 'capture: this command has no such option' write --capture "$header" "$marker" frames out
    unharmed 2 'capture: this command has no such option' find --capture "$header" "$marker" capture
    unharmed 2 'no-clobber: this command has no such option' find -n "$header" "$marker" capture
    unharmed 2 'only one input can be -' find - - capture
    unharmed 2 'only one input can be -' cut - - 13 out
    local slot
    for slot in x '' -1 +1 0x1 1.5 '1 ' 18446744073709551616 99999999999999999999; do
        unharmed 2 "mahyrei: $slot: not a number, or too large" cut -- "$header" capture "$slot" out
    done
    local name
    for name in none none/file frames/file '' directory/none; do
        unharmed 2 "mahyrei: $name: " find "$header" "$marker" "$name"
        unharmed 2 "mahyrei: $name: " cut "$header" "$name" 13 out
        unharmed 2 "mahyrei: $name: " read --capture "$header" "$marker" "$name" out
    done
    unharmed 2 'directory: Is a directory' find "$header" "$marker" directory
    unharmed 2 'directory: Is a directory' cut "$header" directory 13 out
    unharmed 2 'directory: Is a directory' read --capture "$header" "$marker" directory out
    unharmed 2 'directory: Is a directory' cut "$header" capture 13 directory
    unharmed 2 'none/out: its folder cannot be opened: none: No such file' \
        cut "$header" capture 13 none/out
    logged "$said/err" \
        'cut header=- marker=- frames=- slots=- capture=- slot=13 answer=- place=- status=2'
    # Nothing is read where the output cannot be meant, and the log has what was known.
    run 2 --log log cut "$header" capture x out
    logged log 'cut header=- marker=- frames=- slots=- capture=- slot=- answer=- place=- status=2'
    run 2 --log log find "$header" none capture
    logged log "find header=$header marker=- frames=- slots=- capture=- slot=- answer=- place=- status=2"
}

test_find_log() {
    begin_capture
    local digest
    digest() {
        sha256sum "$1" | cut -d ' ' -f 1
    }
    run 0 --log log find "$header" "$marker" ./capture
    same 'standard error beside a log' '' "$err"
    has 'a search in the log' "marker-symbols=$marker frames=- frames-sha256=- frames-file=- slots=- \
slots-sha256=- slots-file=- capture=28395 capture-sha256=$(digest capture) capture-file=./capture \
slot=13 answer=0 place=13 status=0" "$(tail -n 1 log)"
    run 0 --log log cut "$header" capture 13 out
    has 'a cut in the log' "slots=28388 slots-sha256=$(digest slots) slots-file=out capture=28395 \
capture-sha256=$(digest capture) capture-file=capture slot=13 answer=0 place=0 status=0" \
        "$(tail -n 1 log)"
    logged log "cut $cut_out"
    run 0 --log log read --capture "$header" "$marker" capture back
    has 'a run of a capture in the log' "frames=1500 frames-sha256=$(digest frames) frames-file=back \
slots=28388 slots-sha256=$(digest slots) slots-file=- capture=28395 capture-sha256=$(digest capture) \
capture-file=capture slot=13 answer=0 place=0 status=0" "$(tail -n 1 log)"
    logged log "read $read_out"
    run 0 --log log verify --capture "$header" "$marker" - <capture
    logged log "verify $read_out"
    run 1 --log log find "$header" 05000C0308 capture
    logged log "find header=$header marker=5 frames=- slots=- capture=28395 slot=- answer=19 place=0 status=1"
    run 1 --log log cut -f "$header" capture 61 out
    logged log "cut header=$header marker=- frames=- slots=- capture=28395 slot=61 answer=8 place=0 status=1"
    local forged=$'capture\n2026-11-15T16:50:01Z read answer=0 place=0 status=0'
    cp capture "$forged"
    run 0 read -f --capture "$header" "$marker" "$forged" out
    same 'lines about a name of two lines' 2 "$(wc -l <"$said/err")"
    run 1 find "$header" 05000C0308 "$forged"
    same 'lines of a refusal about it' 3 "$(wc -l <"$said/err")"
    cp capture kept
    local name
    for name in capture ./capture; do
        run 2 --log "$name" find "$header" "$marker" capture
        has 'the capture as log' 'capture: this is the log' "$err"
        run 2 --log "$name" cut "$header" capture 13 new
        has 'the capture as log' 'capture: this is the log' "$err"
        run 2 --log "$name" read --capture "$header" "$marker" capture new
        has 'the capture as log' 'capture: this is the log' "$err"
    done
    alike 'the capture after that' kept capture
    run 2 --log new cut "$header" capture 13 ./new
    has 'the output as log' './new: this is the log' "$err"
    same 'no output then' no "$([ -e new ] && echo yes || echo no)"
}

# over STATUS WORD...: nothing goes over the capture, whatever name it has
over() {
    run 2 "$@"
    has "mahyrei $*" 'this is the capture, and what is around the run would be lost' "$err"
    alike "the capture after mahyrei $*" kept capture
    list
    same "files after mahyrei $*" "$before" "$names"
}

test_over_the_capture() {
    begin_capture
    cp capture kept
    ln -s capture link
    ln capture other
    list
    local before=$names name
    for name in capture ./capture "$work/capture" directory/../capture link other; do
        over cut "$header" capture 13 "$name"
        over read --capture "$header" "$marker" capture "$name"
        over cut "$header" "$name" 13 capture
        over read --capture "$header" "$marker" "$name" capture
        over cut "$header" - 13 "$name" <capture
        over read --capture "$header" "$marker" - "$name" <capture
        over cut -f "$header" /dev/stdin 13 "$name" <capture
    done
    for name in - /dev/stdout /dev/fd/1; do
        "$mahyrei" cut "$header" capture 13 "$name" 2>"$said/err" >>capture
        same "status of $name after the capture" 2 $?
        "$mahyrei" read --capture "$header" "$marker" capture "$name" 2>"$said/err" 1<>capture
        same "status of $name over the capture" 2 $?
        alike "the capture after $name" kept capture
    done
    over read --capture "$header" "$marker" capture /dev/fd/7 7>>capture
    # Another file with the same bytes may be written over.
    run 0 cut -f "$header" capture 13 kept
    alike 'a run over another file' slots kept
}

test_find_outputs() {
    begin_capture
    echo old >out
    run 2 --no-clobber cut "$header" capture 13 out
    has 'a file that is not to be replaced' 'out: this file already exists' "$err"
    run 2 -n read --capture "$header" "$marker" capture out
    has 'a file that is not to be replaced' 'out: this file already exists' "$err"
    same 'that file' old "$(<out)"
    chmod 604 out
    run 0 cut -f "$header" capture 13 out
    same 'mode of a file that is replaced' 604 "$(stat -c %a out)"
    rm out
    run 0 -n cut "$header" capture 13 out
    alike 'slots in a new file' slots out
    ln -s out link
    run 0 read -f --capture "$header" "$marker" capture link
    same 'a link stays a link' out "$(readlink link)"
    alike 'the file that a link leads to' frames out
    run 0 cut "$header" - 13 - <capture
    alike 'slots through standard files' slots "$said/out"
    run 0 read --capture "$header" "$marker" - - <capture
    alike 'frames through standard files' frames "$said/out"
    "$mahyrei" -q cut "$header" - 13 - <capture | "$mahyrei" -q read "$header" "$marker" - - |
        cmp -s - frames
    same 'status of each program in a row' '0 0 0' "${PIPESTATUS[*]}"
    run 2 cut "$header" capture 13 /dev/full
    has 'a full device' '/dev/full: No space left on device' "$err"
    run 2 read --capture "$header" "$marker" capture /dev/full
    has 'a full device' '/dev/full: No space left on device' "$err"
    same 'nothing about where a run begins whose frames were not written' '' \
        "$(grep 'the run begins' "$said/err")"
    "$mahyrei" find "$header" "$marker" capture 2>"$said/err" >/dev/full
    same 'status of a slot that cannot be printed' 2 $?
    logged "$said/err" "find ${searched%status=0}status=2"
    "$mahyrei" find "$header" "$marker" capture 2>/dev/null >&-
    same 'status of a slot with standard output closed' 2 $?
    mkfifo pipe
    timeout 20 cat pipe >got &
    run 0 cut "$header" capture 13 pipe
    wait $!
    alike 'slots through a pipe' slots got
    same 'what is left beside them' '' "$(find . -name '.mahyrei*')"
    # An open file is read from where it is.
    cat <(printf 'before') capture >input
    {
        head -c 6 >/dev/null
        "$mahyrei" -q read --capture "$header" "$marker" /dev/stdin back
    } < <(cat input)
    alike 'frames of the rest of an open file' frames back
}

once_find_faults() {
    begin_capture
    local fault
    for fault in read:1:5 write:1:28 write:1:5 fsync:1:5 close:1:5 rename:1:5; do
        prefix=(env "LD_PRELOAD=$faults" "FAULT=$fault")
        unharmed 2 'mahyrei: ' cut "$header" capture 13 out
        unharmed 2 'mahyrei: ' read --capture "$header" "$marker" capture out
    done
    for fault in read:1:5 read:2:5 write:1:28; do
        prefix=(env "LD_PRELOAD=$faults" "FAULT=$fault")
        unharmed 2 'mahyrei: ' find "$header" "$marker" capture
    done
    prefix=(env "LD_PRELOAD=$faults" FAULT=thread:1:11)
    unharmed 2 'a stack of 4 MiB for the library: ' find "$header" "$marker" capture
    unharmed 2 'a stack of 4 MiB for the library: ' cut "$header" capture 13 out
    for fault in 1 2 3; do # the search, the cut, the reading
        prefix=(env "LD_PRELOAD=$faults" "FAULT=thread:$fault:11")
        unharmed 2 'a stack of 4 MiB for the library: ' \
            read --capture "$header" "$marker" capture out
    done
    logged "$said/err" "read header=$header marker=5 frames=- slots=28388 capture=28395 slot=13 \
answer=- place=- status=2"
    prefix=(env "LD_PRELOAD=$faults" FAULT=slow)
    run 0 -q find "$header" "$marker" - < <(cat capture)
    same 'a slot, bit by bit' 13 "$(out)"
    run 0 cut "$header" - 13 - < <(cat capture)
    alike 'slots, bit by bit' slots "$said/out"
    run 0 read --capture "$header" "$marker" capture out
    alike 'frames, bit by bit' frames out
    prefix=(bash -c 'ulimit -f 1; exec "$@"' bash)
    rm out
    unharmed 2 'out: File too large' cut "$header" capture 13 out
    local size
    for size in 400 64; do
        prefix=(bash -c "ulimit -s $size; exec \"\$@\"" bash)
        run 0 -q find "$header" "$marker" capture
        same "a slot on a stack of $size KiB" 13 "$(out)"
        run 0 cut -f "$header" capture 13 out
        alike "slots on a stack of $size KiB" slots out
        run 0 read -f --capture "$header" "$marker" capture out
        alike "frames on a stack of $size KiB" frames out
    done
    prefix=()
}

# A capture has no limit but memory, and one without an end must not take it all.
once_find_memory() {
    begin_capture
    prefix=(env "LD_PRELOAD=$faults" FAULT=memory) # 16,384 bytes
    unharmed 2 "capture: larger than this machine's memory" find "$header" "$marker" capture
    unharmed 2 "capture: larger than this machine's memory" cut "$header" capture 13 out
    unharmed 2 "capture: larger than this machine's memory" \
        read --capture "$header" "$marker" capture out
    unharmed 2 "/dev/zero: larger than half of this machine's memory" find "$header" "$marker" /dev/zero
    unharmed 2 "/dev/zero: larger than half of this machine's memory" cut "$header" /dev/zero 0 out
    run 2 find "$header" "$marker" - < <(yes)
    has 'a pipe without an end' "standard input: larger than half of this machine's memory" "$err"
    logged "$said/err" "find header=$header marker=5 frames=- slots=- capture=- slot=- answer=- \
place=- status=2"
    head -c 16384 slots >just
    run 0 -q find "$header" "$marker" just
    run 2 find "$header" "$marker" <(cat just)
    head -c 8192 slots >half
    run 0 -q find "$header" "$marker" <(cat half)
    same 'a pipe that is just not too long' 0 "$(out)"
    prefix=()
    if truncate -s 4T vast 2>/dev/null; then # its holes take no room on the disk
        unharmed 2 "vast: larger than this machine's memory" find "$header" "$marker" vast
        rm vast
    fi
    prefix=(bash -c 'ulimit -v 200000; exec "$@"' bash)
    unharmed 2 '/dev/zero: Cannot allocate memory' find "$header" "$marker" /dev/zero
    unharmed 2 '/dev/zero: Cannot allocate memory' read --capture "$header" "$marker" /dev/zero out
    prefix=(bash -c 'ulimit -v 160000; exec "$@"' bash) # no room for the slots of such a run
    unharmed 2 'memory: Cannot allocate memory' cut "$largest" capture 13 out
    prefix=()
}

# Nothing half written has the output's name, and no signal but SIGKILL leaves anything behind.
once_find_signals() {
    begin_capture
    local signal temporary held status words
    echo old >out
    for signal in INT TERM HUP SEGV KILL; do
        for words in "cut $header capture 13" "read --capture $header $marker capture"; do
            : >hold
            rm -f .mahyrei.*
            # shellcheck disable=SC2016,SC2086  # the inner shell expands it; several words
            env --default-signal env "LD_PRELOAD=$faults" FAULT=hold \
                bash -c 'ulimit -c 0; exec "$@"' bash "$mahyrei" --log /dev/null --force $words out \
                2>/dev/null &
            held=$! temporary=''
            while [ ! -s "$temporary" ] && kill -0 "$held" 2>/dev/null; do
                for temporary in .mahyrei.*; do :; done
            done
            kill -s "$signal" "$held"
            wait "$held" 2>/dev/null
            status=$?
            same "status after signal $signal" "$signal" "$(kill -l "$status")"
            same "output after signal $signal" old "$(<out)"
            [ "$signal" != KILL ] || rm .mahyrei.*
            same "what signal $signal leaves" '' "$(find . -name '.mahyrei*')"
        done
    done
    rm hold
}

once_find_terminal() {
    begin_capture
    if ! command -v script >"$said/out"; then
        echo 'command: no script(1) here; no run of a capture goes to a terminal'
        return
    fi
    local words
    for words in "cut $header capture 13 -" "read --capture $header $marker capture -"; do
        script -qec "$mahyrei -q $words" /dev/null </dev/null >"$said/out"
        same 'status with a terminal' 2 $?
        has 'bytes for a terminal' 'this is a terminal' "$(out)"
    done
    script -qec "$mahyrei -q read -f --capture $header $marker capture -" /dev/null </dev/null |
        tr -d '\0' >"$said/out"
    has 'bytes for a terminal all the same' 'Frame 0: keep the recording.' "$(out)"
    script -qec "$mahyrei -q find $header $marker capture" /dev/null </dev/null >"$said/out"
    same 'a slot on a terminal' $'13\r' "$(out)"
}
