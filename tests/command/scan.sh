# Whole recordings: find --from and --all, read and verify --from, and scan.
# shellcheck shell=bash

# A recording that begins within a run: its last 20,000 bytes, a run at slot 160013, a damaged one, a
# run at slot 614304 with another right after it at slot 841421, and the first 20,000 bytes of one.
begin_recording() {
    begin
    damage lose 7000
    capture 13 5 0
    cp capture whole
    "$tool" "$header" capture 3 5 0 <damaged >broken
    { tail -c 20000 slots && cat whole broken slots whole && head -c 20000 slots; } >recording
}
starts='8596 84296 160013 235713 311413 387163 462863 538563 614304 690004 765704 841421 917121'
starts+=' 992821 1068568 1144268 1219968'
sound_runs='160013 614304 841421'

# The markers of all lines, and nothing else; from each slot on, those that are left.
test_find_all() {
    begin_recording
    run 0 -q find --all "$header" "$marker" recording
    same 'all starts' "$starts" "$(out | xargs)"
    run 0 find --all "$header" "$marker" - <recording
    logged "$said/err" "find header=$header marker=5 frames=- slots=- capture=153571 slot=8596 \
answer=0 place=8596 status=0"
    local from slot left=$starts
    for slot in $starts; do
        for from in $((slot - 9)) $((slot - 8)) $((slot - 7)) $((slot - 1)) "$slot"; do
            run 0 -q find --from "$from" "$header" "$marker" recording
            same "the first start from slot $from on" "$slot" "$(out)"
        done
        run 0 -q find --all --from "$slot" "$header" "$marker" recording
        same "all starts from slot $slot on" "$left" "$(out | xargs)"
        left=${left#"$slot"} left=${left# }
    done
    refused 19 0 find --from $((1219968 + 1)) "$header" "$marker" recording
    says 'recording: from slot 1219969 on the capture has 8599 slots, and the marker 100' \
        find --from 1219969 "$header" "$marker" recording
    for from in 1228567 1228568 1228569 4611686018427387904 18446744073709551615; do
        refused 19 0 find --from "$from" "$header" "$marker" recording
    done
    refused 19 0 find --from 1 "$header" "$marker" empty
    refused 5 0 find --from 3 "$(header 1 4 2 189 500 5 3)" "$marker" recording
    refused 8 0 find --from 3 "$header" 05 recording
    unharmed 2 'x: not a number, or too large' find --from x "$header" "$marker" recording
    unharmed 2 'its argument is missing' find "$header" "$marker" recording --from
}

# Starts within a byte of each other, and markers that end with the capture: from every slot on, what
# plain counting says. The marker is one symbol of five slots, 1000 and a guard slot.
test_find_from_within_bytes() {
    begin
    local short bits byte from wanted at
    short=$(header 1 2 1 1 1 1 1)
    for bits in 10000100001000010000 00100001000010000100 11111111000010000111 \
        00000000000000010000 10000000100000001000 0000000000001000; do
        while [ $((${#bits} % 8)) -ne 0 ]; do
            bits+=0
        done
        for ((byte = 0; byte < ${#bits}; byte += 8)); do
            printf '%b' "\\x$(printf '%02x' $((2#${bits:byte:8})))"
        done >small
        for ((from = 0; from <= ${#bits} + 1; from++)); do
            wanted=''
            for ((at = from; at + 5 <= ${#bits}; at++)); do
                [ "${bits:at:5}" != 10000 ] || { wanted=$at && break; }
            done
            "$mahyrei" -q find --from "$from" "$short" 00 small >"$said/out" 2>"$said/err"
            same "slot of 10000 in $bits from $from on" "$wanted" "$(out)"
        done
    done
}

# A start in every five slots, more of them than are looked for at once: all are printed, in order.
test_find_all_dense() {
    begin
    local short
    short=$(header 1 2 1 1 1 1 1)
    printf '\x84\x21\x08\x42\x10%.0s' {1..6250} >dense
    run 0 -q find --all "$short" 00 dense
    same 'starts of a dense capture' "$(seq 0 5 249995 | cksum)" "$(cksum <"$said/out")"
    head -c 2561 dense >less # after the first come 4096, which are looked for at once, and no more
    run 0 -q find --all "$short" 00 less
    same 'starts of a shorter one' "$(seq 0 5 20480 | cksum)" "$(cksum <"$said/out")"
}

test_read_from() {
    begin_recording
    refused 10 7570 read --capture "$header" "$marker" recording out
    local from
    for from in 84297 160012 160013; do
        run 0 read -f --capture --from "$from" "$header" "$marker" recording out
        alike "frames from slot $from on" frames out
        has 'where the run begins' 'recording: the run begins at slot 160013, in byte 20001' "$err"
    done
    rm out
    run 0 -q verify --capture --from 614304 "$header" "$marker" recording
    refused 10 7570 verify --capture --from 160014 "$header" "$marker" recording
    # shellcheck disable=SC2016  # it is said so
    has 'what was taken for the start' \
        'recording: the first whole marker from slot 160014 on begins at slot 235713, in byte 29464; `mahyrei scan` tries every start' "$err"
    refused 8 0 read --capture --from 1068560 "$header" "$marker" recording out
    refused 19 0 read --capture --from 1228568 "$header" "$marker" recording out
    unharmed 2 '--from: slots begin with the run; --capture says that this is a capture' \
        read --from 3 "$header" "$marker" recording out
    unharmed 2 'x: not a number' read --capture --from x "$header" "$marker" recording out
    unharmed 2 'from: this command has no such option' write --from 3 "$header" "$marker" frames out
}

# scanned: the files in `to` are the runs, whole
scanned() {
    local slot names=''
    for slot in $sound_runs; do
        alike "frames of the run at slot $slot" frames "to/run-$slot.frames"
        names+="run-$slot.frames "
    done
    same 'files of the scan' "$names" "$(cd to && find . -mindepth 1 -printf '%f\n' | sort | xargs printf '%s ')"
}

test_scan() {
    begin_recording
    run 0 -q scan "$header" "$marker" recording to
    scanned
    same 'nothing else is said' '' "$err"
    same 'the summary' "recording: 3 runs sound, 8 starts refused

  slots in the recording           1,228,568
  runs sound                               3
  starts refused                           8
    by number 8                            3  the recording ends within the run
    by number 10                           5  a symbol cannot be determined
  slots not in any run               547,268
  longest gap                        227,191  from slot 387113 to slot 614303

  slot 160013       sound, 3 frames, 1,500 bytes  to/run-160013.frames
  slot 614304       sound, 3 frames, 1,500 bytes  to/run-614304.frames
  slot 841421       sound, 3 frames, 1,500 bytes  to/run-841421.frames" "$(out)"
    # Verdicts alone, and a recording through a pipe.
    rm -r to
    list
    local before=$names slot
    run 0 -q scan "$header" "$marker" - < <(cat recording)
    has 'a summary of standard input' 'standard input: 3 runs sound, 8 starts refused' "$(out)"
    has 'a run of it' $'\n  slot 614304       sound, 3 frames, 1,500 bytes\n' "$(out)"
    list
    same 'files after a scan without a folder' "$before" "$names"
    # From a slot on, and start by start.
    run 0 -q scan --from 160014 "$header" "$marker" recording to/
    same 'runs from slot 160014 on' 'run-614304.frames run-841421.frames' "$(cd to && echo ./* | sed 's/\.\///g')"
    has 'the name of a file' 'to/run-614304.frames' "$(out)"
    run 0 -qv scan "$header" "$marker" recording
    for slot in $sound_runs; do
        has 'a sound start' "mahyrei: recording: slot $slot: a run begins here, and is sound" "$err"
    done
    has 'a refused start' 'mahyrei: recording: slot 84296: refused, number 10, place 3785: a symbol' "$err"
    has 'a start without an end' 'recording: slot 1144268: refused, number 8, place 0' "$err"
    same 'lines start by start' 11 "$(wc -l <"$said/err")"
}

# What the summary says is what find and read say, start by start.
test_scan_by_hand() {
    begin_recording
    local slot at=0 number numbers=' ' sound=''
    while "$mahyrei" -q find --from "$at" "$header" "$marker" recording >start 2>"$said/err"; do
        slot=$(<start)
        if "$mahyrei" --log log verify --capture --from "$slot" "$header" "$marker" recording \
            2>"$said/err"; then
            sound+="${sound:+ }$slot" at=$((slot + 227100))
        else
            number=$(sed -n '$ s/.* answer=\([0-9]*\) .*/\1/p' log)
            numbers+="$number " at=$((slot + 1))
        fi
    done
    same 'runs by hand' "$sound_runs" "$sound"
    run 0 -q scan --json "$header" "$marker" recording
    same 'refusals by hand' "$(echo "$numbers" | xargs -n 1 | sort -n | uniq -c | xargs)" \
        "$(sed 's/.*"refused_by_number":{\([^}]*\)}.*/\1/; s/"\([0-9]*\)":\([0-9]*\),*/\2 \1 /g' "$said/out" | xargs)"
}

# What --from passes over was not searched, and is no gap: a run may well be there.
test_scan_from() {
    begin_recording
    run 0 -q scan --from 400000 "$header" "$marker" recording --svg picture.svg
    has 'the slots before it' 'slots not searched                 400,000' "$(out)"
    has 'the slots after it' 'slots not in any run               374,368' "$(out)"
    has 'the gap' 'longest gap                        214,304  from slot 400000 to slot 614303' "$(out)"
    has 'in the picture' '>slots not searched: 400000</text>' "$(<picture.svg)"
    run 0 -q scan --json --from 400000 "$header" "$marker" recording
    has 'as JSON' '"slots_not_searched":400000,"slots_not_in_any_run":374368,"longest_gap":{"slot":400000,"slots":214304}' "$(out)"
    run 1 -q scan --json --from 18446744073709551615 "$header" "$marker" recording
    has 'all of it' '"slots_not_searched":1228568,"slots_not_in_any_run":0,"longest_gap":{"slot":1228568,"slots":0},"status":1,"number":19' "$(out)"
    run 0 -q scan "$header" "$marker" recording
    same 'from the first on' 0 "$(grep -c 'not searched' "$said/out")"
}

test_scan_json() {
    begin_recording
    run 0 -q scan --json "$header" "$marker" recording to
    local digest
    digest=$(sha256sum frames | cut -d ' ' -f 1)
    has 'a run as JSON' "{\"slot\":160013,\"frames\":3,\"bytes\":1500,\"sha256\":\"$digest\",\"file\":\"to/run-160013.frames\"}" "$(out)"
    has 'the counts as JSON' '"starts_refused":8,"refused_by_number":{"8":3,"10":5},"slots_not_in_any_run":547268,"longest_gap":{"slot":387113,"slots":227191},"status":0,"number":0,"place":0,"sentence":"All is well: a run is sound, and the frames of each that is are on the disk."' "$(out)"
    run 0 -q scan --json "$header" "$marker" recording
    has 'the end without a folder' '"sentence":"All is well: a run is sound. Nothing was written."' "$(out)"
    cp recording $'a "name"\n\xFF'
    run 0 -q scan --json "$header" "$marker" $'a "name"\n\xFF'
    has 'a name as JSON' '{"capture":"a \"name\"\u000a\udcff","slots":1228568,"runs_sound":3,' "$(out)"
    if command -v python3 >"$said/which"; then
        same 'the summary is JSON' 3 \
            "$(python3 -c 'import json, sys; print(len(json.load(sys.stdin)["runs"]))' <"$said/out")"
    fi
    # A program that reads it is told of every refusal, also of a header or a marker.
    ended() {
        local status=$1 number=$2 place=$3 text=$4
        shift 4
        run "$status" -q scan --json "$@"
        has "the end of scan $*" ",\"status\":$status,\"number\":$number,\"place\":$place,\"sentence\":\"$text\"}" "$(out)"
        has "the runs of scan $*" '"runs_sound":0,"runs":[],' "$(out)"
        same "lines of scan $*" 1 "$(wc -l <"$said/out")"
    }
    ended 1 1 0 "$(sentence 1)" 00 "$marker" recording
    ended 1 5 0 "$(sentence 5)" "$(header 1 4 2 189 500 5 3)" "$marker" recording
    ended 1 7 0 "$(sentence 7)" "$header" 0500100309 recording
    ended 1 8 0 "$(sentence_of_8 scan x)" "$header" 05 recording
    ended 1 19 0 "$(sentence 19)" "$header" "$marker" empty
    head -c 20000 slots >short
    ended 1 8 0 'The recording ends within the run.' "$header" "$marker" short
    ended 1 10 7000 "$(sentence 10)" "$header" "$marker" damaged
    "$mahyrei" -q scan --json 00 "$marker" recording >/dev/full 2>"$said/err"
    same 'status where a refusal cannot be printed' 2 $?
}

# A sound run by itself, none at all, and nothing to find one by.
test_scan_few() {
    begin
    run 0 -q scan "$header" "$marker" slots
    has 'a recording of a run alone' 'longest gap                              4  from slot 227100 to slot 227103' "$(out)"
    refused_scan() {
        run 1 scan "$@"
        logged "$said/err" "$wanted"
    }
    local wanted="scan header=$header marker=5 frames=- slots=- capture=0 slot=- answer=19 place=0 status=1"
    refused_scan "$header" "$marker" empty
    has 'an empty recording' "mahyrei: refused, number 19, place 0: $(sentence 19)" "$err"
    damage lose 7000
    wanted="scan header=$header marker=5 frames=- slots=- capture=28388 slot=- answer=10 place=7000 status=1"
    refused_scan "$header" "$marker" damaged to
    has 'a recording of a damaged run' 'mahyrei: damaged: no run in it is sound' "$err"
    has 'its summary' 'damaged: 0 runs sound, 3 starts refused' "$(out)"
    same 'files of it' '' "$(ls to)"
    unharmed 1 "refused, number 5, place 0: $(sentence 5)" \
        scan "$(header 1 4 2 189 500 5 3)" "$marker" slots
    unharmed 1 "refused, number 7, place 0: $(sentence 7)" scan "$header" 0500100309 slots
    unharmed 2 'has symbols that are sent once' scan "$(header 1 4 5 189 500 5 3 2)" "$marker" slots
    unharmed 2 'number of operands' scan "$header" "$marker"
    unharmed 2 'operand too many' scan "$header" "$marker" slots to more
    unharmed 2 'none: No such file' scan "$header" "$marker" none to
    unharmed 2 'directory: Is a directory' scan "$header" "$marker" directory
    unharmed 2 'frames: Not a directory' scan "$header" "$marker" slots frames
    unharmed 2 'none/to: No such file' scan "$header" "$marker" slots none/to
}

# A line of the log for each run that is sound, as read has it, and one for the scan.
test_scan_log() {
    begin_recording
    local digest slot n=1
    digest() {
        sha256sum "$1" | cut -d ' ' -f 1
    }
    run 0 --log log scan "$header" "$marker" recording to
    same 'standard error beside a log' '' "$err"
    same 'lines of the log' 4 "$(wc -l <log)"
    for slot in $sound_runs; do
        sed -n "${n}p" log >line
        n=$((n + 1))
        has 'a run in the log' "frames=1500 frames-sha256=$(digest frames) \
frames-file=to/run-$slot.frames slots=28388 slots-sha256=$(digest slots) slots-file=- \
capture=153571 capture-sha256=- capture-file=recording slot=$slot answer=0 place=0 status=0" "$(<line)"
        logged line "scan header=$header marker=5 frames=1500 slots=28388 capture=153571 slot=$slot \
answer=0 place=0 status=0"
    done
    logged log "scan header=$header marker=5 frames=- slots=- capture=153571 slot=- answer=0 place=0 status=0"
    cp recording kept
    run 2 --log recording scan "$header" "$marker" recording
    has 'the recording as log' 'this is the log' "$err"
    alike 'the recording then' kept recording
    # The log is no file of frames, even if those may be replaced.
    rm to/*
    run 2 --force --log to/run-160013.frames scan "$header" "$marker" recording to
    same 'a log that a run would replace' 1 "$(grep -Ec "$log_line" to/run-160013.frames)"
}

# Files that are there, and a scan that was ended and is begun again.
test_scan_again() {
    begin_recording
    run 0 -q scan "$header" "$marker" recording to
    run 0 -q scan "$header" "$marker" recording to
    scanned
    echo other >to/run-614304.frames
    rm to/run-841421.frames
    run 2 -q scan "$header" "$marker" recording to
    has 'frames over a file' 'to/run-614304.frames: this file already exists; --force replaces it' "$err"
    same 'that file' other "$(<to/run-614304.frames)"
    same 'no summary then' '' "$(out)"
    run 0 -qf scan "$header" "$marker" recording to
    scanned
    rm to/run-614304.frames
    run 0 -q scan "$header" "$marker" recording to
    scanned
    # Nothing goes over the recording, whatever name it has.
    mkdir own
    cp recording own/run-160013.frames
    run 2 -qf scan "$header" "$marker" own/run-160013.frames own
    has 'frames over the recording' 'this is the recording or the log, which would be lost' "$err"
    alike 'the recording then' recording own/run-160013.frames
    cp recording kept
    run 2 scan "$header" "$marker" recording --svg recording
    has 'a picture over the recording' 'this is what is looked at' "$err"
    alike 'the recording then' kept recording
}

# What has a run's name and is no file would keep nothing: a pipe is not waited for, and a device gets
# nothing.
test_scan_to_no_file() {
    begin_recording
    local kind force
    for kind in pipe device; do
        for force in '' -f; do
            rm -rf to
            mkdir to
            if [ "$kind" = pipe ]; then
                mkfifo to/run-160013.frames
            else
                ln -s /dev/null to/run-160013.frames
            fi
            prefix=(timeout 20)
            # shellcheck disable=SC2086  # none or one
            run 2 -q scan $force "$header" "$marker" recording to
            prefix=()
            same "what is said of a $kind" \
                'mahyrei: to/run-160013.frames: this is no file, and would keep nothing on the disk' "$err"
            same "no line of a $kind in the log" 0 "$(grep -c 'slot=160013' "$said/err")"
        done
    done
}

# Not even with --force does a picture or metadata take the place of frames that were written.
test_scan_over_frames() {
    begin_recording
    local option
    for option in svg annotations; do
        rm -rf to
        mkdir to
        run 2 -q scan -f "$header" "$marker" recording to "--$option" to/../to/run-614304.frames
        same "what is said of --$option" 'mahyrei: to/../to/run-614304.frames: this file has the frames of a run' "$err"
        scanned
    done
    rm -rf to
    mkdir to
    run 2 --log to/run-160013.frames scan -f "$header" "$marker" recording to
    has 'a log among the frames' 'this is the recording or the log, which would be lost' "$err"
}

test_scan_picture() {
    begin_recording
    run 0 -q scan "$header" "$marker" recording --svg picture.svg
    same 'runs of the picture' 3 "$(grep -c ': a run, sound</title>' picture.svg)"
    same 'starts of the picture' 8 "$(grep -c '>1 start refused</title>' picture.svg)"
    has 'the title' '3 runs sound, 8 starts refused: recording' "$(<picture.svg)"
    has 'the scale' '>200000</text>' "$(<picture.svg)"
    has 'the starts refused' '>starts refused: 8</text>' "$(<picture.svg)"
    same 'swatches of the picture' 3 "$(grep -c 'width="11" height="11"' picture.svg)"
    head -c 1000 /dev/zero >quiet
    run 1 -q scan -f "$header" "$marker" quiet --svg picture.svg
    same 'lines of the legend that count 0' 0 "$(grep -c ': 0</text>' picture.svg)"
    run 0 -q scan -f "$header" "$marker" recording --svg picture.svg
    if command -v python3 >"$said/which"; then
        same 'the picture is XML' yes "$(python3 -c 'import sys, xml.dom.minidom as dom
dom.parse("picture.svg"); print("yes")')"
    fi
    local long
    long=$(printf 'x%.0s' {1..200})
    cp recording "$long"
    run 0 -q scan -f "$header" "$marker" "$long" --svg picture.svg
    same 'a long name in the title' 0 "$(grep '<text' picture.svg | grep -c "$(printf 'x%.0s' {1..60})")"
}

# A run is killed between two files of frames: what is there is whole, and the next scan goes on.
once_scan_killed() {
    begin_recording
    local held status
    for signal in TERM KILL; do
        : >hold
        rm -rf to
        # shellcheck disable=SC2016  # the inner shell expands it
        env --default-signal env "LD_PRELOAD=$faults" FAULT=hold bash -c 'ulimit -c 0; exec "$@"' \
            bash "$mahyrei" -q scan "$header" "$marker" recording to >"$said/out" 2>&1 &
        held=$!
        sleep 0.5
        kill -s "$signal" "$held"
        wait "$held" 2>/dev/null
        status=$?
        same "status after signal $signal" "$signal" "$(kill -l "$status")"
        same "frames after signal $signal" '' "$(find to -name 'run-*')"
        rm -f hold to/.mahyrei.*
        run 0 -q scan "$header" "$marker" recording to
        scanned
    done
}

# meanwhile COMMAND: a scan of `recording`, whose starts are more than a pipe holds lines for, and in
# the middle of it the command; what is said is in $said/err, and its status in $status
meanwhile() {
    mkfifo pipe
    {
        read -r first
        eval "$1"
        echo "$first"
        cat
    } <pipe >"$said/err" &
    "$mahyrei" -v scan "$header" "$marker" recording >"$said/out" 2>pipe
    status=$?
    wait $!
    rm pipe
}

# A mapped file that becomes shorter takes its bytes away; one that is written to changes them.
once_scan_of_a_file_that_changes() {
    begin
    local status i
    head -c 13 slots >start
    for ((i = 0; i < 12; i++)); do
        cat start start >twice
        mv twice start
    done
    cp start recording
    meanwhile true
    same 'status of a scan that nobody disturbs' 1 "$status"
    has 'its summary' 'recording: 0 runs sound, 4,096 starts refused' "$(out)"
    meanwhile 'truncate -s 5000 recording'
    same 'status where the recording becomes shorter' 2 "$status"
    has 'what is said then' 'mahyrei: recording: part of it is gone: it became shorter' \
        "$(tail -n 1 "$said/err")"
    same 'no summary then' '' "$(out)"
    cp start recording
    meanwhile 'printf x >>recording'
    same 'status where the recording changes' 2 "$status"
    has 'what is said then' 'mahyrei: recording: it changed while it was read.' "$(<"$said/err")"
    same 'no summary then' '' "$(out)"
}

# A start in every thirteen bytes, 4,096 of them: what is short is not judged on a stack each.
once_scan_dense() {
    begin
    local i
    head -c 13 slots >recording
    for ((i = 0; i < 12; i++)); do
        cat recording recording >twice
        mv twice recording
    done
    prefix=(env "LD_PRELOAD=$faults" FAULT=thread:40:11) # at the fortieth it would fail
    run 1 -q scan "$header" "$marker" recording
    prefix=()
    has 'the summary of a dense recording' 'recording: 0 runs sound, 4,096 starts refused' "$(out)"
    run 1 -qv scan --from 3 "$header" "$marker" recording
    same 'what is said of each of its starts' "$(seq 104 104 425880 | cksum)" \
        "$(sed -n 's/^mahyrei: recording: slot \([0-9]*\): refused, number [0-9]*, .*/\1/p' "$said/err" | cksum)"
}

# The line on a terminal goes on in a recording in which nothing is found, too.
once_scan_progress() {
    begin
    if ! command -v script >"$said/out"; then
        echo 'command: no script(1) here; the progress of a scan is not looked at'
        return
    fi
    local shown
    truncate -s 300M recording
    script -qec "env LD_PRELOAD=$faults FAULT=ticking $mahyrei scan $header $marker recording" \
        /dev/null </dev/null >"$said/out"
    has 'what comes of it' 'refused, number 19, place 0' "$(out)"
    shown=$(grep -Eo '[0-9]+ % of the recording, runs sound: 0,' "$said/out" | uniq | cut -d ' ' -f 1)
    same 'it comes to more than a beginning and an end' yes "$([ "$(wc -l <<<"$shown")" -ge 3 ] && echo yes)"
    same 'it goes up' "$(sort -n <<<"$shown")" "$shown"
}

# More than there is memory: mapped, not read.
once_scan_larger_than_memory() {
    begin_recording
    prefix=(env "LD_PRELOAD=$faults" FAULT=memory) # 16,384 bytes
    run 0 -q scan "$header" "$marker" recording to
    scanned
    run 2 -q scan "$header" "$marker" - < <(cat recording)
    has 'through a pipe' "standard input: larger than half of this machine's memory" "$err"
    prefix=(bash -c 'ulimit -d 20000; exec "$@"' bash) # the heap, not what is mapped
    truncate -s 300M recording
    run 0 -q scan "$header" "$marker" recording
    has 'a recording of 300 MiB' 'slots in the recording       2,516,582,400' "$(out)"
    prefix=()
}

once_scan_faults() {
    begin_recording
    local fault name
    for fault in read:1:5 write:1:28 write:1:5 fsync:1:5 close:1:5 rename:1:5 thread:1:11; do
        rm -rf to
        prefix=(env "LD_PRELOAD=$faults" "FAULT=$fault")
        run 2 scan header "$marker" recording to
        has "what is said after $fault" 'mahyrei: ' "$err"
        same "frames after $fault" '' "$(find . -path './to/*')"
        same "no summary after $fault" '' "$(out)"
    done
    # The name of a new folder is brought to the disk before anything is in it; and that of one which a
    # scan before this one has made, and which may have been cut short there.
    for name in to there; do
        rm -rf to
        mkdir -p there
        prefix=(env "LD_PRELOAD=$faults" FAULT=fsync:1:5)
        run 2 scan "$header" "$marker" recording "$name"
        has "a folder whose name does not get to the disk, $name" "mahyrei: $name: Input/output error" "$err"
        same "what is in it then, $name" '' "$(ls -A "$name")"
    done
    # So are frames that are there already, and their names: who left them may have been ended before.
    prefix=()
    run 0 -q scan "$header" "$marker" recording to
    for fault in fsync:2:5 fsync:3:5; do
        prefix=(env "LD_PRELOAD=$faults" "FAULT=$fault")
        run 2 scan "$header" "$marker" recording to
        has "frames that were there, $fault" 'mahyrei: to/run-160013.frames: Input/output error' "$err"
        same "no line of the log then, $fault" 0 "$(grep -c 'slot=160013 answer=0' "$said/err")"
    done
    # After the first run that is sound another thread is wanted: what was written before is whole.
    prefix=(env "LD_PRELOAD=$faults" FAULT=thread:2:11)
    rm -rf to
    run 2 scan header "$marker" recording to
    has 'what is said without a second stack' 'a stack of 4 MiB for the library: Resource' "$err"
    same 'files then' run-160013.frames "$(ls -A to)"
    alike 'the frames then' frames to/run-160013.frames
    same 'no summary then' '' "$(out)"
    prefix=()
    "$mahyrei" scan "$header" "$marker" recording >/dev/full 2>"$said/err"
    same 'status of a summary that cannot be printed' 2 $?
    if [ "$(id -u)" -ne 0 ]; then
        mkdir -p shut && chmod 555 shut
        run 2 scan "$header" "$marker" recording shut
    fi
}

# The recording is searched a stretch of 4 MiB at a time: a marker on either side of where one ends,
# or across it, is found all the same, and once.
once_scan_stretches() {
    begin
    local slot edge=$((8 * 4194304))
    for slot in $((edge - 101)) $((edge - 100)) $((edge - 99)) $((edge - 40)) $((edge - 7)) \
        $((edge - 1)) "$edge" $((edge + 1)) $((edge + 8)) $((2 * edge - 50)); do
        capture "$slot" 9 0
        run 0 -q scan --json "$header" "$marker" capture
        has "a run at slot $slot" "\"runs_sound\":1,\"runs\":[{\"slot\":$slot," "$(out)"
        has "no other start" '"starts_refused":0,' "$(out)"
        run 0 -q scan --json --from "$slot" "$header" "$marker" capture
        has "a run at slot $slot, from there on" "\"runs\":[{\"slot\":$slot," "$(out)"
        run 1 -q scan --json --from $((slot + 1)) "$header" "$marker" capture
        has "later lines of a run at slot $slot" '"starts_refused":2,' "$(out)"
    done
}

# The manual's example is what one sees.
test_scan_manual() {
    begin
    damage lose 7000
    capture 13 100 1
    { tail -c 20000 slots && cat capture damaged capture; } >recording
    run 0 -q scan "$header" "$marker" recording monday
    same 'the summary in the manual' "$(out)" \
        "$(sed -n '/^    . mahyrei scan /,/^.scan. takes/p' "$root/docs/manual/recordings.md" |
            sed '1d; $d; s/^    //' | sed -e :a -e '/^\n*$/{$d;N;ba' -e '}')"
    run 0 -q find --all "$header" "$marker" recording
    same 'the starts in the manual' "$(head -n 4 "$said/out")" \
        "$(sed -n '/^    . mahyrei -q find --all/,/^    \.\.\./p' "$root/docs/manual/recordings.md" |
            sed '1d; $d; s/^    //')"
}
