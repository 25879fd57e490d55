# Command frames to slots and back.
# shellcheck shell=bash

# commands COUNT: so many frames of eight bytes, no two alike, in `commands`
commands() {
    local i
    for ((i = 0; i < $1; i++)); do
        printf 'CMD %04d' "$i"
    done >commands
}

# Three frames and their slots, and what the log has of them.
begin_uplink() {
    begin
    commands 3
    "$mahyrei" -q uplink-write commands sent
}
sound_uplink='frames=24 slots=192 answer=0 place=0 status=0'

# put BYTE DIGITS: `damaged` is the slots with bytes changed from this one on
put() {
    cp sent damaged
    bytes "$2" | dd of=damaged bs=1 seek="$1" conv=notrunc status=none
}

test_uplink_round_trip() {
    begin
    local count line
    for count in 1 2 3 63 64; do
        commands "$count"
        line="frames=$((count * 8)) slots=$((count * 64)) answer=0 place=0 status=0"
        rm -f out back
        run 0 uplink-write commands out
        same 'standard output' '' "$(out)"
        logged "$said/err" "uplink-write $line"
        same "bytes of $count codeblocks" $((count * 64)) "$(stat -c %s out)"
        run 0 uplink-read out back
        alike "$count frames" commands back
        logged "$said/err" "uplink-read $line"
    done
    # One by one the codeblocks are the same.
    commands 3
    run 0 uplink-write -f commands out
    for count in 0 1 2; do
        tail -c +$((count * 8 + 1)) commands | head -c 8 >one
        run 0 uplink-write -f one codeblock
        alike "codeblock $count" codeblock <(tail -c +$((count * 64 + 1)) out | head -c 64)
    done
}

# FRAME, its first eight slot bytes, and its last eight
known_slots() {
    cat <<'KNOWN'
0000000000000000 4444444484884888 8488844844884448
0000000000000001 4444444484884888 4884884844484484
8000000000000000 8444444484884888 8488448488884488
FFFFFFFFFFFFFFFF 8888888848448444 4844488488448884
0123456789ABCDEF 4444444884484844 4444448848844848
KNOWN
}

test_uplink_known() {
    begin
    local frame first last slots
    while read -r frame first last; do
        bytes "$frame" >one
        run 0 -q uplink-write -f one out
        slots=$(od -An -v -tx1 out | tr -d ' \n' | tr a-f A-F)
        same "slots of $frame" "$first .. $last" "${slots:0:16} .. ${slots: -16}"
    done < <(known_slots)
}

test_uplink_refusals() {
    begin_uplink
    refused 8 0 uplink-write empty out
    refused 8 0 uplink-read empty out
    refused 8 0 uplink-read /dev/zero out
    refused 8 0 uplink-write /dev/zero out
    local from
    for from in commands sent; do
        local way=uplink-write
        [ "$from" = commands ] || way=uplink-read
        head -c -1 "$from" >short
        refused 8 0 "$way" short out
        cat "$from" <(printf x) >long
        refused 8 0 "$way" long out
    done
    commands 65
    refused 8 0 uplink-write commands out
    head -c $((65 * 64)) /dev/zero >many
    refused 8 0 uplink-read many out
    head -c 64 /dev/zero >dark
    refused 28 0 uplink-read dark out
    put 5 C8 # two pulses for one bit
    refused 28 10 uplink-read damaged out
    put 191 41
    refused 28 383 uplink-read damaged out
    put 0 A8 # a pulse in a guard slot too
    refused 28 0 uplink-read damaged out
    head -c 192 /dev/zero | tr '\0' '\210' >sent # every group 1000
    refused 29 0 uplink-read sent out
    put 191 80 # asked of all slots before any parity
    refused 28 383 uplink-read damaged out
    commands 3
    "$mahyrei" -qf uplink-write commands sent
    cat <(head -c 96 sent) <(tail -c 32 sent) <(tail -c 64 sent) >damaged # another frame's parity
    refused 29 1 uplink-read damaged out
}

test_uplink_says_where() {
    begin_uplink
    says 'empty: there are 0 bytes; an uplink has 8 for each frame, and 1 to 64 of them' \
        uplink-write empty out
    says 'commands: there are 24 bytes; an uplink has 64 for each codeblock, and 1 to 64 of them' \
        uplink-read commands out
    says 'standard input: there are 513 bytes or more; an uplink has 8 for each frame, and 1 to '\
'64 of them' uplink-write - out </dev/zero
    says '/dev/zero: there are 4097 bytes or more; an uplink has 64 for each codeblock, and 1 '\
'to 64 of them' uplink-read /dev/zero out
    put 69 80
    says 'damaged: group 139 is bit 11 of codeblock 1, slots 556 to 559, in byte 69' \
        uplink-read damaged out
    cat <(head -c 160 sent) <(tail -c +33 sent | head -c 32) >damaged
    says 'damaged: codeblock 2 is bytes 128 to 191' uplink-read damaged out
}

test_uplink_usage() {
    begin_uplink
    unharmed 2 'number of operands' uplink-write commands
    unharmed 2 'operand too many' uplink-read sent out out
    unharmed 2 'long: this command has no such option' -l uplink-read sent out
    unharmed 2 'no such command' uplink commands out
    unharmed 2 'none: No such file' uplink-write none out
    unharmed 2 'directory: Is a directory' uplink-read directory out
    run 2 uplink-write commands directory
    run 0 uplink-write - - <commands
    alike 'slots through standard files' sent "$said/out"
    cp commands both
    "$mahyrei" -q uplink-write - - <commands | "$mahyrei" -q uplink-read - - | cmp -s - both
    same 'status of each program in a row' '0 0 0' "${PIPESTATUS[*]}"
    run 0 uplink-write -f both both
    alike 'slots over their own frames' sent both
    run 0 uplink-read -f both both
    alike 'frames over their own slots' commands both
}

test_uplink_log() {
    begin_uplink
    local digest
    digest() {
        sha256sum "$1" | cut -d ' ' -f 1
    }
    run 0 --log log uplink-write ./commands out
    same 'standard error beside a log' '' "$err"
    has 'an uplink in the log' "uplink-write frames=24 frames-sha256=$(digest commands) \
frames-file=./commands slots=192 slots-sha256=$(digest sent) slots-file=out answer=0 place=0 \
status=0" "$(tail -n 1 log)"
    run 0 --log log uplink-read sent - </dev/null
    has 'the way back in the log' "frames-sha256=$(digest commands) frames-file=- slots=192 \
slots-sha256=$(digest sent) slots-file=sent " "$(tail -n 1 log)"
    logged log "uplink-read $sound_uplink"
    put 69 80
    run 1 --log log uplink-read -f damaged out
    has 'a refusal in the log' "frames=- frames-sha256=- frames-file=out slots=192 \
slots-sha256=$(digest damaged) slots-file=damaged answer=28 place=139 status=1" "$(tail -n 1 log)"
    run 1 --log log uplink-write -f /dev/zero out
    has 'what is not read to its end' 'frames=513 frames-sha256=- frames-file=/dev/zero' \
        "$(tail -n 1 log)"
    run 2 --log log uplink-write none out
    logged log 'uplink-write frames=- slots=- answer=- place=- status=2'
    run 0 --quiet uplink-write -f commands out
    same 'what a quiet uplink says' '' "$err"
    run 1 -q uplink-read -f damaged out
    has 'a quiet refusal' 'mahyrei: refused, number 28, place 139: ' "$err"
    same 'no line of the log there' 0 "$(grep -Ec "$log_line" "$said/err")"
    cp commands kept
    run 2 --log commands uplink-write commands out
    has 'the frames as log' 'commands: this is the log' "$err"
    alike 'the frames after that' kept commands
    run 2 --log out uplink-write commands ./out
    has 'the output as log' './out: this is the log' "$err"
}

test_uplink_outputs() {
    begin_uplink
    echo old >out
    run 2 --no-clobber uplink-write commands out
    has 'a file that is not to be replaced' 'out: this file already exists' "$err"
    same 'that file' old "$(<out)"
    chmod 604 out
    run 0 uplink-write -f commands out
    same 'mode of a file that is replaced' 604 "$(stat -c %a out)"
    rm out
    run 0 -n uplink-read sent out
    alike 'frames in a new file' commands out
    ln -s out link
    run 0 uplink-write -f commands link
    same 'a link stays a link' out "$(readlink link)"
    alike 'the file that a link leads to' sent out
    run 2 uplink-write commands /dev/full
    has 'a full device' '/dev/full: No space left on device' "$err"
    same 'what is left beside them' '' "$(find . -name '.mahyrei*')"
}

once_uplink_faults() {
    begin_uplink
    local fault
    for fault in read:1:5 write:1:28 write:1:5 fsync:1:5 close:1:5 rename:1:5; do
        prefix=(env "LD_PRELOAD=$faults" "FAULT=$fault")
        unharmed 2 'mahyrei: ' uplink-write commands out
        unharmed 2 'mahyrei: ' uplink-read sent out
    done
    prefix=(env "LD_PRELOAD=$faults" FAULT=thread:1:11)
    unharmed 2 'a stack of 4 MiB for the library: ' uplink-read sent out
    prefix=(bash -c 'ulimit -s 64; exec "$@"' bash)
    run 0 uplink-read sent out
    alike 'frames on a stack of 64 KiB' commands out
    prefix=()
}

# Nothing half written has the output's name, and no signal but SIGKILL leaves anything behind.
once_uplink_signals() {
    begin_uplink
    local signal temporary held status
    echo old >out
    for signal in INT TERM HUP SEGV KILL; do
        : >hold
        rm -f .mahyrei.*
        # shellcheck disable=SC2016  # the inner shell expands it
        env --default-signal env "LD_PRELOAD=$faults" FAULT=hold bash -c 'ulimit -c 0; exec "$@"' \
            bash "$mahyrei" --log /dev/null uplink-read -f sent out 2>/dev/null &
        held=$! temporary=''
        while [ ! -s "$temporary" ] && kill -0 "$held" 2>/dev/null; do
            for temporary in .mahyrei.*; do :; done
        done
        kill -s "$signal" "$held"
        wait "$held" 2>/dev/null
        status=$?
        same "status after signal $signal" "$signal" "$(kill -l "$status")"
        same "output after signal $signal" old "$(<out)"
        [ "$signal" != KILL ] || rm .mahyrei.*
        same "what signal $signal leaves" '' "$(find . -name '.mahyrei*')"
    done
    rm hold
}

once_uplink_terminal() {
    begin_uplink
    if ! command -v script >"$said/out"; then
        echo 'command: no script(1) here; no uplink goes to a terminal'
        return
    fi
    script -qec "$mahyrei -q uplink-read sent -" /dev/null </dev/null >"$said/out"
    same 'status with a terminal' 2 $?
    has 'bytes for a terminal' 'this is a terminal' "$(out)"
    script -qec "$mahyrei -q uplink-read -f sent -" /dev/null </dev/null | tr -d '\0' >"$said/out"
    has 'bytes for a terminal all the same' 'CMD 0000' "$(out)"
}
