# Headers in the rack.
# shellcheck shell=bash

first=5950F01BE80204000000 second=5004021BE10104000000
zeros=0000000000000000000000

# digits FILE: its bytes as hexadecimal digits
digits() {
    od -An -v -tx1 "$1" | tr -d ' \n' | tr a-f A-F
}

# entries FILE: the entries of a rack that are not empty, as NUMBER:DIGITS
entries() {
    local all i entry
    all=$(digits "$1")
    for ((i = 0; i < ${#all} / 22; i++)); do
        entry=${all:i * 22:22}
        [ "$entry" = "$zeros" ] || printf '%s' "$i:$entry "
    done
}

# A rack with one header: mission 0's place 1, lent to nobody.
begin_rack() {
    begin
    "$mahyrei" -q rack-load rack 0 0 1 "$first"
}

# kept STATUS TEXT WORD...: the command says this and leaves the rack and the folder as they were
kept() {
    local status=$1 text=$2 before
    shift 2
    cp rack before
    list
    before=$names
    run "$status" "$@"
    has "what mahyrei $* says" "$text" "$err"
    same "standard output of mahyrei $*" '' "$(out)"
    list
    same "files after mahyrei $*" "$before" "$names"
    alike "the rack after mahyrei $*" before rack
    rm before
}

# refused_rack NUMBER WORD...
refused_rack() {
    local number=$1 lines text
    shift
    [ "$number" -eq 8 ] && text=$(sentence_of_8 "$@") || text=$(sentence "$number")
    kept 1 "mahyrei: refused, number $number, place 0: $text" "$@"
    mapfile -t lines <"$said/err"
    has "the log of mahyrei $*" "answer=$number place=0 status=1" "${lines[-1]-}"
}

# reads HEADER WORD...: rack-read of these numbers gives this given
reads() {
    local header=$1
    shift
    run 0 rack-read rack "$@" -
    same "what mahyrei rack-read rack $* gives" "$header" "$(digits "$said/out")"
}

test_rack_trace() {
    begin
    run 0 rack-load rack 0 0 1 "$first" # there was no file
    same 'standard output' '' "$(out)"
    same 'bytes of a rack' 176 "$(stat -c %s rack)"
    same 'the rack after a load' "1:01$first " "$(entries rack)"
    refused_rack 25 rack-read rack 0 0 0 given
    refused_rack 25 rack-read rack 2 0 1 given
    refused_rack 23 rack-lend rack 0 0 1 0
    refused_rack 25 rack-lend rack 0 0 2 2
    refused_rack 23 rack-lend rack 1 0 1 1
    refused_rack 25 rack-lend rack 1 0 1 2
    run 0 rack-lend rack 0 0 1 2
    same 'the rack after a loan' "1:04$first " "$(entries rack)"
    reads "$first" 2 0 1
    run 0 rack-load rack 0 0 1 "$second"
    same 'the rack after another load' "1:04$second " "$(entries rack)"
    reads "$second" 2 0 1
    run 0 rack-lend rack 0 0 1 3
    refused_rack 25 rack-read rack 2 0 1 given
    reads "$second" 3 0 1
    refused_rack 25 rack-drop rack 3 0 1
    run 0 rack-drop rack 0 0 1
    same 'the rack after a drop' '' "$(entries rack)"
    refused_rack 25 rack-read rack 3 0 1 given
    run 0 rack-load rack 0 0 1 "$first"
    refused_rack 25 rack-read rack 3 0 1 given
    refused_rack 23 rack-read rack 4 9 9 given
    refused_rack 24 rack-read rack 1 1 4 given
    refused_rack 1 rack-load rack 1 1 0 "${first:0:18}"
    refused_rack 25 rack-load rack 1 2 0 "${first:0:18}"
    same 'the rack at the end' "1:01$first " "$(entries rack)"
}

# Nothing that is said tells an empty place from one that is not lent, or one rack from another that
# is the same to the mission: there is no digest of it in the log.
test_rack_says_no_more() {
    begin_rack
    run 1 rack-read -f rack 2 0 1 given # loaded, and not lent
    sed 's/^[^ ]*Z //' "$said/err" >loaded
    run 0 rack-load rack 1 1 0 "$second"
    run 1 rack-read -f rack 2 0 1 given
    sed 's/^[^ ]*Z //' "$said/err" >another
    alike 'what is said after another load' loaded another
    run 0 rack-drop rack 0 0 1
    run 1 rack-read -f rack 2 0 1 given # empty
    sed 's/^[^ ]*Z //' "$said/err" >dropped
    alike 'what is said of an empty place and of one that is not lent' loaded dropped
    same 'the sentence of 25' "The place is not open to this mission: it is empty, or another's \
and not lent to it for reading." "$(sentence 25)"
}

test_rack_refusals() {
    begin_rack
    local number
    for number in 4 5 256 4294967296 4611686018427387904 18446744073709551615; do
        refused_rack 23 rack-load rack "$number" 0 0 "$first"
        refused_rack 23 rack-read rack 0 "$number" 1 given
        refused_rack 23 rack-drop rack "$number" "$number" "$number"
        refused_rack 23 rack-lend rack 0 0 1 "$number"
        refused_rack 24 rack-load rack 0 0 "$number" "$first"
        refused_rack 24 rack-lend rack 0 0 "$number" 2
        refused_rack 24 rack-drop rack 0 1 "$number"
    done
    # Each question on a header, and the header that was there stays.
    refused_rack 1 rack-load rack 0 0 1 "$first"00
    refused_rack 1 rack-load rack 0 0 1 "${first:0:16}0001"
    refused_rack 1 rack-load rack 0 0 1 5950F01BE8020000
    refused_rack 2 rack-load rack 0 0 1 D950F01BE80204000000
    refused_rack 3 rack-load rack 0 0 1 4150F01BE80204000000
    refused_rack 4 rack-load rack 0 0 1 5800F01BE80204000000
    refused_rack 5 rack-load rack 0 0 1 5950F21BE80204000000
    refused_rack 6 rack-load rack 0 0 1 5950F01BE80004000000
    refused_rack 7 rack-load rack 0 0 1 5950F01BE00204000000
    refused_rack 20 rack-load rack 0 0 1 5950F01BE80214000000
    refused_rack 25 rack-load rack 1 0 1 00
    refused_rack 24 rack-load rack 1 0 4 00
    same 'the rack after all that' "1:01$first " "$(entries rack)"
    # A file of another length is no rack.
    local length
    for length in 0 11 175 177 100000; do
        head -c "$length" /dev/zero >rack
        refused_rack 8 rack-load rack 0 0 1 "$first"
        refused_rack 25 rack-read rack 0 0 1 given
        refused_rack 25 rack-drop rack 0 0 1
        head -c "$length" /dev/zero | tr '\0' '\1' >rack
        refused_rack "$((length > 0 ? 8 : 25))" rack-read rack 0 0 0 given
        refused_rack "$((length > 165 ? 8 : 25))" rack-lend rack 3 3 3 0
        refused_rack "$((length > 165 ? 8 : 25))" rack-drop rack 3 3 3
    done
    # Every content is a rack: a first byte of 1, or above 5, is loaded and lent to nobody.
    head -c 176 /dev/zero | tr '\0' '\377' >rack
    reads FFFFFFFFFFFFFFFFFFFF 3 3 3
    refused_rack 25 rack-read rack 0 3 3 given
    run 0 rack-load rack 3 3 3 "$first"
    same 'a first byte that stays' "FF$first" "$(digits rack | tail -c 22)"
    head -c 176 /dev/zero | tr '\0' '\2' >rack # all lent to mission 0
    reads 02020202020202020202 0 3 3
    refused_rack 25 rack-read rack 1 3 3 given
}

test_rack_says_where() {
    begin_rack
    : >short
    says 'short: there are 0 bytes, and a rack has 176' rack-load short 0 0 0 "$first"
    head -c 200 /dev/zero >long
    says 'long: there are 177 bytes or more, and a rack has 176' rack-load long 0 0 0 "$first"
    bytes "${first:0:18}" >nine
    says 'nine: the header has 9 bytes, and needs 10' rack-load rack 0 0 0 nine
    says 'standard input: W is 0' rack-load rack 0 0 0 - < <(bytes 5950F01BE00204000000)
    run 1 -q rack-load rack 4 0 0 nine
    same 'lines of another refusal' 1 "$(wc -l <"$said/err")"
}

test_rack_usage() {
    begin_rack
    local word
    kept 2 'number of operands' rack-load rack 0 0 1
    kept 2 'operand too many' rack-load rack 0 0 1 "$first" out
    kept 2 'number of operands' rack-read rack 0 0 1
    kept 2 'number of operands' rack-lend rack 0 0 1
    kept 2 'operand too many' rack-drop rack 0 0 1 2
    kept 2 'no such command' rack rack 0 0 1
    kept 2 'this command has no such option' rack-load -n rack 0 0 1 "$first"
    kept 2 'this command has no such option' rack-drop -f rack 0 0 1
    for word in x '' -1 0x1 1.5 ' 1' 18446744073709551616; do
        kept 2 "$word: not a number, or too large" rack-drop -- rack "$word" 0 1
        kept 2 "$word: not a number, or too large" rack-read -- rack 0 "$word" 1 given
        kept 2 "$word: not a number, or too large" rack-load -- rack 0 0 "$word" "$first"
        kept 2 "$word: not a number, or too large" rack-lend -- rack 0 0 1 "$word"
    done
    # A rack that is not there is the empty rack.
    kept 1 'refused, number 25' rack-read none 0 0 1 given
    kept 1 'refused, number 25' rack-drop none 0 0 1
    kept 1 'refused, number 25' rack-lend none 0 0 1 2
    kept 1 'refused, number 25' rack-load none 0 1 0 "$first"
    kept 1 'refused, number 1,' rack-load none 0 0 0 00
    kept 2 'none/rack: its folder cannot be opened: none: No such file' \
        rack-load none/rack 0 0 0 "$first"
    # A rack is a file that is replaced, and no other.
    kept 2 'directory: Is a directory' rack-load directory 0 0 1 "$first"
    kept 2 'directory: Is a directory' rack-read directory 0 0 1 given
    for word in - /dev/stdin /dev/fd/0 /dev/null /dev/full; do
        kept 2 "$word: a rack is kept in a file, by its name" rack-load "$word" 0 0 1 "$first" <rack
    done
    mkfifo pipe
    kept 2 'pipe: a rack is kept in a file, by its name' rack-drop pipe 0 0 1
    rm pipe
    kept 2 'rack: this is the rack' rack-read rack 0 0 1 ./rack
    # Reading takes it from anywhere.
    run 0 rack-read -f - 0 0 1 header <rack
    same 'a header from standard input' "$first" "$(digits header)"
    run 0 rack-load rack 0 0 2 header
    run 0 rack-load rack 0 0 3 - <header
    bytes "$second" >header
    run 0 rack-load rack 1 1 0 ./header
    same 'headers from files' "1:01$first 2:01$first 3:01$first 4:01$second " "$(entries rack)"
}

test_rack_outputs() {
    begin_rack
    echo old >header
    run 2 rack-read rack 0 0 1 header
    has 'a file that is not to be replaced' 'header: this file already exists' "$err"
    same 'that file' old "$(<header)"
    chmod 604 header
    run 0 rack-read -f rack 0 0 1 given
    same 'mode of a file that is replaced' 604 "$(stat -c %a header)"
    run 2 rack-read rack 0 0 1 /dev/full
    has 'a full device' '/dev/full: No space left on device' "$err"
    # The rack keeps what a replaced file keeps.
    chmod 640 rack
    mv rack elsewhere
    ln -s elsewhere rack
    run 0 rack-lend rack 0 0 1 2
    same 'a link stays a link' elsewhere "$(readlink rack)"
    same 'the file that it leads to' "1:04$first 640" "$(entries elsewhere)$(stat -c %a elsewhere)"
    ln -s nowhere astray
    run 1 rack-read astray 0 0 1 out
    run 0 rack-load astray 0 0 1 "$first"
    same 'a rack by a link that led nowhere' "1:01$first nowhere" "$(entries nowhere)$(readlink astray)"
    ln -s round round
    run 2 rack-load round 0 0 1 "$first"
    prefix=(bash -c 'umask 027; exec "$@"' bash)
    run 0 rack-load new 0 0 1 "$first"
    same 'mode of a new rack' 640 "$(stat -c %a new)"
    prefix=()
    same 'what is left beside them' '' "$(find . -name '.mahyrei*')"
}

test_rack_permissions() {
    begin_rack
    if [ "$(id -u)" -eq 0 ]; then # nothing is forbidden to root
        prefix=(chroot --userspec=65534:65534 --groups= --skip-chdir /)
        chown -R 65534:65534 "$work"
    fi
    chmod 444 rack
    kept 2 'rack: Permission denied' rack-lend rack 0 0 1 2
    kept 2 'rack: Permission denied' rack-load rack 0 0 1 "$second"
    reads "$first" 0 0 1 # which needs no more than reading
    chmod 000 rack
    run 2 rack-read rack 0 0 1 given
    has 'a rack that may not be read' 'rack: Permission denied' "$err"
    mkdir shut
    chmod 644 rack
    cp rack shut/rack
    chmod 555 shut
    [ "$(id -u)" -ne 0 ] || chown -R 65534:65534 shut
    run 2 rack-lend shut/rack 0 0 1 2
    has 'a folder that may not be written' \
        'shut/rack: no temporary file can be made in ' "$err"
    alike 'the rack in it' rack shut/rack
    run 2 rack-load shut/new 0 0 1 "$first"
    chmod 755 shut
    same 'files in it' rack "$(ls -A shut)"
    prefix=()
}

test_rack_log() {
    begin_rack
    run 0 --log log rack-lend ./rack 0 0 1 2
    same 'standard error beside a log' '' "$err"
    has 'a loan in the log' 'rack-lend area-file=./rack caller=0 owner=0 rack-place=1 to=2 header=- '\
'answer=0 place=0 status=0' "$(tail -n 1 log)"
    run 0 --log log rack-read rack 2 0 1 -
    has 'a read in the log' "rack-read area-file=rack caller=2 owner=0 rack-place=1 to=- \
header=$first answer=0 place=0 status=0" "$(tail -n 1 log)"
    run 0 --log log rack-load rack 0 0 1 "$second"
    logged log "rack-load caller=0 owner=0 rack-place=1 to=- header=$second answer=0 place=0 status=0"
    run 1 --log log rack-drop rack 1 0 1
    logged log 'rack-drop caller=1 owner=0 rack-place=1 to=- header=- answer=25 place=0 status=1'
    run 1 --log log rack-load rack 0 0 1 00
    logged log 'rack-load caller=0 owner=0 rack-place=1 to=- header=00 answer=1 place=0 status=1'
    run 1 --log log rack-drop none 0 0 1
    logged log 'rack-drop caller=0 owner=0 rack-place=1 to=- header=- answer=25 place=0 status=1'
    run 2 --log log rack-lend rack 0 0 1 x
    logged log 'rack-lend caller=0 owner=0 rack-place=1 to=- header=- answer=- place=- status=2'
    run 2 --log log rack-drop rack x 0 1
    logged log 'rack-drop caller=- owner=- rack-place=- to=- header=- answer=- place=- status=2'
    cp rack $'a rack\n'
    run 0 --log log rack-drop $'a rack\n' 0 0 1
    has 'a name in the log' ' area-file=a\x20rack\n caller=0 ' "$(tail -n 1 log)"
    run 0 --quiet rack-drop rack 0 0 1
    same 'what a quiet call says' '' "$err"
    cp rack kept
    run 2 --log rack rack-load rack 0 0 1 "$first"
    has 'the rack as log' 'rack: this is the log' "$err"
    alike 'the rack after that' kept rack
    bytes "$first" >header
    run 2 --log header rack-load rack 0 0 1 ./header
    has 'the header as log' './header: this is the log' "$err"
    same 'the header after that' "$first" "$(digits header)"
    run 0 rack-load rack 0 0 1 header
    run 2 --log out rack-read rack 0 0 1 ./out
    has 'the output as log' './out: this is the log' "$err"
    mkdir 0
    run 0 --log 0/0 rack-lend rack 0 0 1 1 # a number is no file
    run 0 --log 5 rack-lend --wait 5 rack 0 0 1 1
}

# The system fails the command at each step.
once_rack_faults() {
    begin_rack
    local fault
    bytes "$second" >header
    for fault in read:1:5 read:2:5 write:1:28 write:1:5 fsync:1:5 rename:1:5 fchmod:1:1 flock:1:37 \
        thread:1:11; do
        prefix=(env "LD_PRELOAD=$faults" "FAULT=$fault")
        kept 2 'mahyrei: ' rack-load rack 0 0 1 header
        [ "$fault" = read:2:5 ] || kept 2 'mahyrei: ' rack-lend rack 0 0 1 2
    done
    for fault in write:1:28 fsync:1:5 rename:1:5; do # where there was none
        prefix=(env "LD_PRELOAD=$faults" "FAULT=$fault")
        kept 2 'mahyrei: ' rack-load none 0 0 1 header
    done
    prefix=(env "LD_PRELOAD=$faults" FAULT=flock:1:37)
    kept 2 'rack: this file cannot be locked: No locks available' rack-drop rack 0 0 1
    prefix=(env "LD_PRELOAD=$faults" FAULT=flock:1:4) # interrupted
    run 0 rack-lend rack 0 0 1 2
    prefix=(env "LD_PRELOAD=$faults" FAULT=slow)
    run 0 rack-load rack 0 0 1 header
    prefix=(bash -c 'ulimit -s 64; exec "$@"' bash)
    run 0 rack-load rack 0 0 2 header
    prefix=()
    same 'the rack after that' "1:04$second 2:01$second " "$(entries rack)"
}

# A disk without room, where it can be had.
once_rack_full_disk() {
    begin_rack
    local space=(unshare -m)
    [ "$(id -u)" -eq 0 ] || space=(unshare -rm)
    if ! "${space[@]}" mount -t tmpfs -o size=4k none directory 2>/dev/null; then
        echo 'command: no small disk can be mounted here; no rack is on a full one'
        return
    fi
    # shellcheck disable=SC2016  # the inner shell expands it
    "${space[@]}" bash -c 'mount -t tmpfs -o size=4k none directory || exit
        cp rack directory/rack
        "$@" rack-lend directory/rack 0 0 1 2; echo "status $?"
        cmp rack directory/rack && ls -A directory' bash "$mahyrei" --log /dev/null >"$said/out" 2>&1
    same 'a rack on a full disk' \
        $'mahyrei: directory/rack: No space left on device\nstatus 2\nrack' "$(out)"
}

# held_load WORD...: a load that waits with its new rack all but in place, as long as there is a file
# `hold`; its process is in $held
held_load() {
    local temporary=''
    : >hold
    rm -f .mahyrei.*
    # shellcheck disable=SC2016  # the inner shell expands it
    env --default-signal env "LD_PRELOAD=$faults" FAULT=hold bash -c 'ulimit -c 0; exec "$@"' \
        bash "$mahyrei" --log /dev/null rack-load "$@" 2>/dev/null &
    held=$!
    while [ ! -s "$temporary" ] && kill -0 "$held" 2>/dev/null; do
        for temporary in .mahyrei.*; do :; done
    done
}

# Two at once: neither loses the other's change. The second has to wait for the first, and then to
# see what the first has left. Without the lock it would be done while the first is held, and then
# be written over; without a look at the name it would start from the file that is no more.
once_rack_two_at_once() {
    begin_rack
    local other
    held_load rack 1 1 0 "$first"
    "$mahyrei" -q rack-load rack 2 2 0 "$second" &
    other=$!
    sleep 0.5
    same 'the second waits' yes "$(kill -0 "$other" 2>/dev/null && echo yes)"
    same 'reading does not' "$first" "$("$mahyrei" -q rack-read rack 0 0 1 - | od -An -v -tx1 |
        tr -d ' \n' | tr a-f A-F)"
    rm hold
    wait "$held"
    same 'status of the first' 0 $?
    wait "$other"
    same 'status of the second' 0 $?
    same 'both are there' "1:01$first 4:01$first 8:01$second " "$(entries rack)"
    # Where there is no file yet, the one that comes late starts again from what is there now.
    held_load new 1 1 0 "$first"
    run 0 rack-load new 2 2 0 "$second"
    run 0 rack-lend new 2 2 0 1
    same 'the first is still under way' "8:03$second " "$(entries new)"
    rm hold
    wait "$held"
    same 'status of the one that came late' 0 $?
    same 'both are in the new one' "4:01$first 8:03$second " "$(entries new)"
    same 'what is left beside them' '' "$(find . -name '.mahyrei*')"
}

# Who waited answers by what the first has left, and not by the file that it had opened.
once_rack_waited_for() {
    begin_rack
    local other
    held_load rack 1 1 0 "$first"
    "$mahyrei" rack-lend rack 1 1 0 2 2>waited &
    other=$!
    for ((i = 0; i < 200; i++)); do
        [ ! -s waited ] || break
        sleep 0.02
    done
    rm hold
    wait "$held"
    wait "$other"
    same 'status of a loan of what the first has loaded' 0 $?
    same 'the rack then' "1:01$first 4:04$first " "$(entries rack)"
}

# Sixteen at once on a rack that is not there, and then sixteen loans.
once_rack_many_at_once() {
    begin
    local owner place pids pid wanted='' lent='' failed=0
    pids=()
    for owner in 0 1 2 3; do
        for place in 0 1 2 3; do
            "$mahyrei" -q rack-load rack "$owner" "$owner" "$place" "$first" &
            pids+=($!)
            wanted+="$((4 * owner + place)):01$first "
            lent+="$((4 * owner + place)):0$((2 + (owner + 1) % 4))$first "
        done
    done
    for pid in "${pids[@]}"; do
        wait "$pid" || failed=$((failed + 1))
    done
    same 'those of sixteen loads that failed' 0 "$failed"
    same 'the rack after sixteen loads at once' "$wanted" "$(entries rack)"
    pids=()
    for owner in 0 1 2 3; do
        for place in 0 1 2 3; do
            "$mahyrei" -q rack-lend rack "$owner" "$owner" "$place" "$(((owner + 1) % 4))" &
            pids+=($!)
        done
    done
    for pid in "${pids[@]}"; do
        wait "$pid" || failed=$((failed + 1))
    done
    same 'those of sixteen loans that failed' 0 "$failed"
    same 'the rack after sixteen loans at once' "$lent" "$(entries rack)"
}

# Nothing half written has the rack's name, no signal but SIGKILL leaves anything behind, and what
# SIGKILL leaves is in nobody's way: the lock goes with the program.
once_rack_signals() {
    begin_rack
    cp rack before
    local signal status
    for signal in INT TERM HUP SEGV KILL; do
        held_load rack 1 1 0 "$second"
        kill -s "$signal" "$held"
        wait "$held" 2>/dev/null
        status=$?
        same "status after signal $signal" "$signal" "$(kill -l "$status")"
        alike "the rack after signal $signal" before rack
        [ "$signal" = KILL ] || same "what signal $signal leaves" '' "$(find . -name '.mahyrei*')"
    done
    rm hold
    run 0 rack-load rack 1 1 0 "$second"
    same 'a load beside a temporary file that was left' "1:01$first 4:01$second " "$(entries rack)"
    same 'which is left alone' 1 "$(find . -name '.mahyrei*' | wc -l)"
    rm .mahyrei.*
    # One that waits for the lock can be ended too.
    held_load rack 2 2 0 "$second"
    env --default-signal "$mahyrei" -q rack-drop rack 0 0 1 &
    sleep 0.2
    kill -TERM $!
    wait $! 2>/dev/null
    status=$?
    same 'status of one that waited' TERM "$(kill -l "$status")"
    rm hold
    wait "$held"
    same 'the rack then' "1:01$first 4:01$second 8:01$second " "$(entries rack)"
}

once_rack_terminal() {
    begin_rack
    if ! command -v script >"$said/out"; then
        echo 'command: no script(1) here; no header goes to a terminal'
        return
    fi
    script -qec "$mahyrei -q rack-read rack 0 0 1 -" /dev/null </dev/null >"$said/out"
    same 'status with a terminal' 2 $?
    has 'bytes for a terminal' 'this is a terminal' "$(out)"
}

# A rack that is shared keeps its owner, group and list, or nothing is done: who may not keep them
# would lock others out of their own places.
test_rack_shared() {
    begin_rack
    if [ "$(id -u)" -ne 0 ]; then
        echo 'command: only root can give a rack away; shared ones are not tried'
        return
    fi
    local owned word
    gcc -std=c11 "$root/tests/c/access_list.c" -o list_tool
    chmod 777 .
    chown 1234:2345 rack
    chmod 666 rack
    ./list_tool set rack || echo 'command: no access lists here; a rack is shared by its mode alone'
    owned="$(stat -c '%u %g %a' rack) $(./list_tool show rack)"
    prefix=(chroot --userspec=65534:65534 --groups= --skip-chdir /)
    for word in 'rack-load rack 1 1 0 5950F01BE80204000000' 'rack-drop rack 0 0 1' \
        'rack-lend rack 0 0 1 2'; do
        # shellcheck disable=SC2086  # several words are meant
        kept 2 'rack: this rack is another user' $word
        same "who has the rack after $word" "$owned" "$(stat -c '%u %g %a' rack) $(./list_tool show rack)"
    done
    reads "$first" 0 0 1
    # As its owner, or as root, all of it is kept.
    prefix=(chroot --userspec=1234:2345 --groups= --skip-chdir /)
    run 0 rack-lend rack 0 0 1 2
    same 'who has it after its owner' "$owned" "$(stat -c '%u %g %a' rack) $(./list_tool show rack)"
    prefix=()
    run 0 rack-load rack 1 1 0 "$second"
    same 'who has it after root' "$owned" "$(stat -c '%u %g %a' rack) $(./list_tool show rack)"
    same 'the rack after that' "1:04$first 4:01$second " "$(entries rack)"
    # The owner has left the group: that cannot be kept either.
    chown 1234:3456 rack
    prefix=(chroot --userspec=1234:2345 --groups= --skip-chdir /)
    kept 2 'rack: owner, group, mode and access list have to be kept, and cannot be' \
        rack-lend rack 0 0 1 3
    prefix=()
}

# Whether there is a file as yet is news of other missions: nothing that is said tells it.
test_rack_missing() {
    begin
    local word
    head -c 176 /dev/zero >there
    for word in 'rack-read RACK 2 0 1 out' 'rack-read RACK 2 2 1 out' 'rack-drop RACK 2 2 1' \
        'rack-lend RACK 2 2 1 3' 'rack-load RACK 2 1 0 5950F01BE80204000000' \
        'rack-load RACK 2 2 0 00' 'rack-drop RACK 9 2 1' 'rack-read RACK 2 2 9 out'; do
        # shellcheck disable=SC2086  # several words are meant
        run 1 ${word/RACK/there}
        sed -e 's/^[^ ]*Z //' -e 's/there/RACK/g' "$said/err" >empty
        # shellcheck disable=SC2086  # several words are meant
        run 1 ${word/RACK/missing}
        sed -e 's/^[^ ]*Z //' -e 's/missing/RACK/g' "$said/err" >missed
        alike "what is said of an empty and of a missing rack by $word" empty missed
    done
    same 'no rack was made' no "$([ -e missing ] && echo yes || echo no)"
    # No call makes a folder, so that one that is missing tells of none.
    for word in 'rack-read none/rack 0 0 1 out' "rack-load none/rack 0 0 1 $first" \
        'rack-drop none/rack 0 0 1' 'rack-lend none/rack 0 0 1 2'; do
        # shellcheck disable=SC2086  # several words are meant
        run 2 $word
        has "a folder that is missing, by $word" 'none/rack: its folder cannot be opened: none' "$err"
    done
}

# The header is not taken from the rack, whose first bytes are another mission's.
test_rack_as_header() {
    begin_rack
    run 0 rack-load rack 0 0 0 "$second"
    ln rack other
    ln -s rack link
    : >log
    local name
    for name in rack ./rack other link; do
        kept 2 "$name: this is the rack" --log log rack-load rack 3 3 3 "$name"
        same 'nothing of it in the log' 'header=-' "$(tail -n 1 log | grep -o 'header=[^ ]*')"
    done
    kept 2 '-: this is the rack' --log log rack-load rack 3 3 3 - <rack
    kept 2 '/dev/stdin: this is the rack' --log log rack-load rack 3 3 3 /dev/stdin <rack
}

# A link that leads elsewhere by the time of the replacing: the rack that was read is replaced, and
# no other is touched.
once_rack_link_moved() {
    begin_rack
    mkdir a b
    mv rack a/rack
    "$mahyrei" -q rack-load b/rack 3 3 3 "$second"
    cp b/rack other
    ln -s a/rack rack
    ln -s b/rack next
    prefix=(env "LD_PRELOAD=$faults" SWAP=flock:next:rack)
    run 0 rack-load rack 1 1 0 "$second"
    prefix=()
    same 'the link leads elsewhere by then' b/rack "$(readlink rack)"
    same 'the rack that was locked' "1:01$first 4:01$second " "$(entries a/rack)"
    alike 'the rack that the link leads to by then' other b/rack
}

# A rack that somebody takes away meanwhile does not come back with what was in it.
once_rack_taken_away() {
    begin_rack
    prefix=(env "LD_PRELOAD=$faults" SWAP=fsync:rack:away)
    run 0 rack-load rack 1 1 0 "$second"
    prefix=()
    same 'the rack that was taken away' "1:01$first " "$(entries away)"
    same 'the new one' "4:01$second " "$(entries rack)"
}

# A disk that says yes to a lock and locks nothing: what another program has put there meanwhile is
# seen before it is replaced.
once_rack_no_lock() {
    begin_rack
    export NOLOCK=1
    held_load rack 1 1 0 "$first"
    prefix=(env "LD_PRELOAD=$faults")
    run 0 rack-load rack 2 2 0 "$second"
    prefix=()
    same 'the second is done while the first is held' "1:01$first 8:01$second " "$(entries rack)"
    rm hold
    wait "$held"
    same 'status of the first' 0 $?
    same 'both are there' "1:01$first 4:01$first 8:01$second " "$(entries rack)"
    unset NOLOCK
    same 'what is left beside it' '' "$(find . -name '.mahyrei*')"
}

# Disks without hard links, and disks without a renaming that replaces nothing.
once_rack_without_links() {
    begin
    local fault name=0
    for fault in link:1:1 link:1:95 noreplace:1:22 noreplace:1:38; do
        prefix=(env "LD_PRELOAD=$faults" "FAULT=$fault")
        run 0 rack-load "rack$((++name))" 0 0 1 "$first"
        run 0 write "$header" "$marker" frames "out$name"
        alike "slots with $fault" slots "out$name"
        run 2 write "$header" "$marker" frames "out$name"
    done
    prefix=()
    same 'what is left beside them' '' "$(find . -name '.mahyrei*')"
}

# A lock that is waited for is said so, and for as long as one likes.
once_rack_wait() {
    begin_rack
    local other begun
    held_load rack 1 1 0 "$first"
    "$mahyrei" rack-load rack 2 2 0 "$second" 2>waited &
    other=$!
    for ((i = 0; i < 200; i++)); do
        [ ! -s waited ] || break
        sleep 0.02
    done
    same 'what is said while it waits' 'mahyrei: rack: another program has locked it; waiting' \
        "$(<waited)"
    kept 2 'rack: another program has it locked, after 0 seconds' rack-drop --wait 0 rack 0 0 1
    begun=${EPOCHREALTIME/./}
    kept 2 'rack: another program has it locked, after 1 seconds' rack-drop --wait 1 rack 0 0 1
    same 'no less than that' yes \
        "$([ $((${EPOCHREALTIME/./} - begun)) -ge 900000 ] && echo yes)"
    same 'that it waits is said' 1 "$(grep -c '^mahyrei: rack: .*; waiting$' "$said/err")"
    kept 2 'rack: another program has it locked, after 1 seconds' -q rack-drop --wait 1 rack 0 0 1
    same 'lines of one that waits quietly' 1 "$(wc -l <"$said/err")"
    kept 2 'not a number' rack-drop --wait soon rack 0 0 1
    rm hold
    wait "$held"
    wait "$other"
    same 'status of the one that waited' 0 $?
    run 0 rack-drop --wait 5 rack 0 0 1
    same 'the rack then' "4:01$first 8:01$second " "$(entries rack)"
}

# The first leaves a rack that another has locked already: the two waits together are no longer than
# was said.
once_rack_wait_twice() {
    begin_rack
    if ! command -v flock >"$said/out"; then
        echo 'command: no flock(1) here; nobody waits for two locks'
        return
    fi
    local behind begun
    cp rack next
    (flock 9 && : >one && exec sleep 20) 9<next &
    behind=$!
    (flock 9 && : >two && sleep 3 && mv next rack) 9<rack &
    while [ ! -e one ] || [ ! -e two ]; do
        sleep 0.02
    done
    begun=${EPOCHREALTIME/./}
    run 2 rack-drop --wait 4 rack 0 0 1
    same 'no more than that' yes \
        "$([ $((${EPOCHREALTIME/./} - begun)) -lt 6500000 ] && echo yes)"
    has 'what is said then' 'rack: another program has it locked, after 4 seconds' "$err"
    same 'that it waits is said once' 1 "$(grep -c '; waiting$' "$said/err")"
    kill "$behind"
    wait
}

# One's own places and those lent to one, and no others; and loans that are ended.
test_rack_list() {
    begin
    local other
    other=$(header 1 4 5 189 500 5 2)
    run 0 rack-list rack 0
    same 'an empty rack' '' "$(out)"
    logged "$said/err" 'rack-list caller=0 owner=- rack-place=- to=- header=- answer=0 place=0 status=0'
    run 0 -q rack-load rack 0 0 1 "$header"
    run 0 -q rack-load rack 0 0 3 "$other"
    run 0 -q rack-load rack 2 2 0 "$other"
    run 0 -q rack-lend rack 0 0 1 2
    run 0 -q rack-list rack 0
    same 'places of mission 0' "0 1 $header"$'\n'"0 3 $other" "$(out)"
    run 0 -q rack-list rack 2
    same 'places of mission 2' "0 1 $header"$'\n'"2 0 $other" "$(out)"
    run 0 -q rack-list rack 1
    same 'places of mission 1' '' "$(out)"
    # What a mission is told is what rack-read gives it, place by place.
    local caller owner place told
    for caller in 0 1 2 3; do
        told=''
        for owner in 0 1 2 3; do
            for place in 0 1 2 3; do
                if "$mahyrei" -qf rack-read rack $caller $owner $place got 2>"$said/err"; then
                    told+="$owner $place $(od -An -v -tx1 got | tr -d ' \n' | tr a-f A-F)"$'\n'
                fi
            done
        done
        run 0 -q rack-list rack "$caller"
        same "what mission $caller is told" "$told" "$(out)${told:+$'\n'}"
    done
    unharmed 1 "refused, number 23, place 0: $(sentence 23)" rack-list rack 4
    unharmed 2 'x: not a number' rack-list rack x
    run 0 -q rack-list - 2 <rack
    same 'a rack on standard input' 2 "$(wc -l <"$said/out")"
}

test_rack_lend_none() {
    begin
    run 0 -q rack-load rack 0 0 1 "$header"
    cp rack before
    run 0 -q rack-lend rack 0 0 1 2
    cp rack lent
    run 1 -q rack-lend rack 2 0 1 none # the borrower cannot
    alike 'the rack then' lent rack
    run 1 -q rack-lend rack 1 0 1 none
    alike 'the rack then' lent rack
    run 0 rack-lend rack 0 0 1 none
    logged "$said/err" 'rack-lend caller=0 owner=0 rack-place=1 to=none header=- answer=0 place=0 status=0'
    alike 'a rack whose loan was ended' before rack
    run 1 -q rack-read rack 2 0 1 out
    run 0 -q rack-lend rack 0 0 1 none # there is none to end
    alike 'a rack without a loan' before rack
    run 1 -q rack-lend rack 0 0 2 none
    has 'an empty place' "refused, number 25, place 0: $(sentence 25)" "$err"
    run 1 -q rack-lend rack 0 0 4 none
    has 'no place' "refused, number 24, place 0: $(sentence 24)" "$err"
    run 2 -q rack-lend rack 0 0 1 nobody
}
