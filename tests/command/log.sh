# The line of a run.
# shellcheck shell=bash

test_log() {
    begin
    run 0 --log log write "$header" "$marker" frames out
    same 'standard error beside a log' '' "$err"
    logged log "write $sound"
    run 1 read -f "$header" 00 slots out --log=log
    has 'a refusal beside a log' 'mahyrei: refused, number 8, place 0: ' "$err"
    logged log "read header=$header marker=1 frames=- slots=28388 answer=8 place=0 status=1"
    run 0 sheet "$header" --log log
    logged log "sheet $sound"
    run 1 sheet hex: --log log
    logged log 'sheet header= marker=- frames=- slots=- answer=1 place=0 status=1'
    same 'lines of the log' 4 "$(wc -l <log)"
    prefix=(env MAHYREI_LOG=other)
    run 0 sheet "$header"
    same 'standard error beside the log of the environment' '' "$err"
    same 'lines of that log' 1 "$(wc -l <other)"
    run 0 --log log sheet "$header"
    same 'lines of the log, which goes first' '5 1' "$(wc -l <log) $(wc -l <other)"
    prefix=(env MAHYREI_LOG=)
    run 0 sheet "$header"
    logged "$said/err" "sheet $sound"
    prefix=()
    unharmed 2 'none/log: No such file' --log none/log write "$header" "$marker" frames out
    unharmed 2 'directory: Is a directory' --log directory write "$header" "$marker" frames out
    run 2 --log /dev/full write "$header" "$marker" frames out
    has 'a log that is full' '/dev/full: No space left on device' "$err"
    alike 'the output then' slots out
    rm out
    "$mahyrei" write "$header" "$marker" frames out 2>/dev/full
    same 'status where the log is a full standard error' 2 $?
    alike 'the output then' slots out
    for ((i = 0; i < 20; i++)); do
        "$mahyrei" --log many write "$header" "$marker" frames "out$i" &
    done
    wait
    same 'lines of twenty runs at once' '20 20' "$(wc -l <many) $(grep -Ec "$log_line" many)"
    same 'what is left of them' '' "$(find . -name '.mahyrei*')"
}

# The log is what erasing rests on: the files by name, and digests that other programs give too.
test_log_names() {
    begin
    local digest
    digest() {
        sha256sum "$1" | cut -d ' ' -f 1
    }
    run 0 --log log write -f "$header" "$marker" frames out
    has 'the run in the log' "marker=5 marker-symbols=$marker frames=1500 frames-sha256=$(digest \
        frames) frames-file=frames slots=28388 slots-sha256=$(digest slots) slots-file=out " \
        "$(tail -n 1 log)"
    run 0 --log log read "$header" "$marker" ./slots - </dev/null
    has 'the way back in the log' "frames-sha256=$(digest frames) frames-file=- slots=28388 \
slots-sha256=$(digest slots) slots-file=./slots " "$(tail -n 1 log)"
    run 0 --log log verify "$header" "$marker" slots
    logged log "verify $sound"
    has 'a verified run in the log' "frames-sha256=$(digest frames) frames-file=- " \
        "$(tail -n 1 log)"
    damage lose 7000
    run 1 --log log read -f "$header" "$marker" damaged out
    has 'a refusal in the log' "frames=- frames-sha256=- frames-file=out slots=28388 \
slots-sha256=$(digest damaged) slots-file=damaged answer=10 place=7000" "$(tail -n 1 log)"
}

# No name can pass for a line of the log.
test_forged_lines() {
    begin
    local forged=$'none\n2026-11-15T16:50:01Z read answer=0 place=0 status=0'
    local escaped='none\n2026-11-15T16:50:01Z read answer=0 place=0 status=0'
    run 2 read "$header" "$marker" "$forged" out
    same 'lines about a name of two lines' 2 "$(wc -l <"$said/err")"
    has 'a name of two lines' "mahyrei: $escaped: No such file" "$err"
    has 'it in the log' "slots-file=${escaped// /\\x20} answer=" "$err"
    run 2 read "$forged" "$marker" slots out
    same 'lines about a header of two lines' 2 "$(wc -l <"$said/err")"
    run 2 write "$header" "$marker" frames "$forged/out"
    same 'lines about an output of two lines' 2 "$(wc -l <"$said/err")"
    run 2 --log "$forged/log" write "$header" "$marker" frames out
    same 'lines about a log of two lines' 1 "$(wc -l <"$said/err")"
    run 2 "$forged"
    has 'a command of two lines' "mahyrei: $escaped: no such command" "$err"
    run 2 "--$forged"
    has 'an option of two lines' "mahyrei: --$escaped: no such option" "$err"
    run 2 read "$header" "$marker" $'\e[2J\r\x7f\xc3\xa4\\' out
    has 'a name that moves the cursor' 'mahyrei: \x1B[2J\r\x7F\xC3\xA4\\: No such file' "$err"
    same 'control characters said' '' "$(tr -d '\n' <"$said/err" | tr -d '[:print:]')"
    cp slots "$forged"
    run 1 read "$header" 00 "$forged" out
    same 'lines of a refusal' 3 "$(wc -l <"$said/err")"
    head -c 3 slots >"$forged"
    run 1 read "$header" "$marker" "$forged" out
    same 'lines of a refusal by size' 3 "$(wc -l <"$said/err")"
    has 'sizes of a name of two lines' "mahyrei: $escaped: the slots have 3 bytes" "$err"
}

# clash WHAT FILE WORD...: refused since the log is this file, which stays as it is
clash() {
    local what=$1 file=$2
    shift 2
    [ ! -e "$file" ] || cp "$file" kept
    list
    local before=$names
    run 2 "$@"
    has "$what" 'the log' "$err"
    list
    same "files after $what" "$before" "$names"
    [ ! -e "$file" ] || alike "the file after $what" kept "$file"
}

test_log_among_operands() {
    begin
    : >kept
    clash 'the frames as log' frames --log frames write header marker frames out
    clash 'the header as log' header --log ./header write header marker frames out
    clash 'the marker as log' marker --log marker write header marker frames out
    clash 'the slots as log' slots --log directory/../slots read header marker slots out
    clash 'a new output as log' out --log out write header marker frames out
    clash 'a new output as log' out --log ./out write header marker frames out
    echo old >out
    clash 'an output as log' out --log out write header marker frames out
    ln -s out link
    ln out other
    clash 'a link to the output as log' out --log link write header marker frames out
    clash 'another name of the output as log' out --log other write header marker frames out
    clash 'standard input as log' frames --log frames write header marker - out <frames
    clash 'the header of a sheet as log' header --log header sheet header
    rm link out
    ln -s out link
    clash 'a link to a new output as log' out --log link write header marker frames out
    echo old >out
    prefix=(env MAHYREI_LOG=out)
    clash 'the output as the log of the environment' out write header marker frames out
    prefix=()
    "$mahyrei" --log both read header marker slots - >>both 2>"$said/err"
    same 'status with standard output as log' 2 $?
    same 'what it then has' '' "$(<both)"
    "$mahyrei" read header marker slots - >both 2>&1
    same 'status where standard error is the output' 2 $?
    has 'what it then has' 'standard error too' "$(<both)"
    run 0 --log /dev/null write header marker frames /dev/null
}

test_quiet() {
    begin
    run 0 --quiet write "$header" "$marker" frames out
    same 'what a quiet run says' '' "$err"
    run 1 -q read -f "$header" 00 slots out
    has 'a quiet refusal' 'mahyrei: refused, number 8, place 0: ' "$err"
    same 'no line of the log there' 0 "$(grep -Ec "$log_line" "$said/err")"
    run 2 -q read -f "$header" "$marker" none out
    has 'a quiet failure' 'mahyrei: none: No such file' "$err"
    run 0 -q --log log read -f "$header" "$marker" slots out
    logged log "read $sound"
}

# A log can be an open file, as an output can.
test_log_open_file() {
    begin
    {
        echo before
        "$mahyrei" --log /dev/stdout read "$header" "$marker" slots out
        "$mahyrei" --log /dev/fd/1 read -f "$header" "$marker" slots out
        echo after
    } >group 2>"$said/err"
    same 'a log among what others say' 'before 2 after' \
        "$(head -n 1 group) $(grep -Ec "$log_line" group) $(tail -n 1 group)"
    same 'what is said beside it' '' "$(<"$said/err")"
    run 2 --log /dev/fd/9 read "$header" "$marker" slots out
    has 'a log that is not open' '/dev/fd/9: Bad file descriptor' "$err"
}

# A line that was cut off, by a full disk or a power cut, is ended before the next is added: joined,
# the two would be one line, which says of the one run what the other did.
test_log_torn() {
    begin
    local torn="2026-11-15T16:50:01Z read header=$header marker=5 frames-file=monday" how
    for how in named open standard; do
        printf '%s' "$torn" >log
        case $how in
            named) "$mahyrei" --log log read "$header" "$marker" slots "out.$how" ;;
            open) "$mahyrei" --log /dev/fd/7 read "$header" "$marker" slots "out.$how" 7>>log ;;
            standard) "$mahyrei" read "$header" "$marker" slots "out.$how" 2>>log ;;
        esac
        same "status with a torn log, $how" 0 $?
        same "lines of a torn log, $how" 2 "$(wc -l <log)"
        same "the torn line, $how" "$torn" "$(head -n 1 log)"
        logged log "read $sound"
    done
    # What is said of a refusal is not joined to it either.
    printf '%s' "$torn" >log
    "$mahyrei" read "$header" 00 slots out 2>>log
    same 'status of a refusal with a torn log' 1 $?
    same 'the torn line before a refusal' "$torn" "$(head -n 1 log)"
    has 'what is said after it' $'\nmahyrei: refused, number 8, place 0: ' "$(<log)"
    same 'the last line then' 1 "$(tail -n 1 log | grep -Ec "$log_line")"
    chmod 222 log # it may not be read, and nobody knows how it ends
    if [ "$(id -u)" -eq 0 ]; then
        chown -R 65534:65534 .
        prefix=(chroot --userspec=65534:65534 --groups= --skip-chdir /)
    fi
    printf x >>log
    run 0 --log log read "$header" "$marker" slots out
    prefix=()
    chmod 644 log
    logged log "read $sound"
    # One that ends as it should gets no empty line.
    rm -f log out*
    run 0 --log log read "$header" "$marker" slots out
    run 0 --log log verify "$header" "$marker" slots
    same 'lines of a whole log' 2 "$(wc -l <log)"
    same 'empty lines of it' 0 "$(grep -c '^$' log)"
}

# A line that another run is writing has not been cut off: a moment later it is whole.
once_log_amid() {
    begin
    printf '2026-11-15T16:50:01Z read' >log
    prefix=(env "LD_PRELOAD=$faults" FAULT=amid)
    run 0 --log log read "$header" "$marker" slots out
    prefix=()
    same 'the line that was seen in part' '2026-11-15T16:50:01Z read status=0' "$(head -n 1 log)"
    same 'lines of that log' 2 "$(wc -l <log)"
    logged log "read $sound"
}

# A full disk cuts a line off; the next run does not join its own to it.
once_log_full_disk() {
    begin
    local space=(unshare -m)
    [ "$(id -u)" -eq 0 ] || space=(unshare -rm)
    if ! "${space[@]}" mount -t tmpfs -o size=8k none directory 2>/dev/null; then
        echo 'command: no small disk can be mounted here; no log is on a full one'
        return
    fi
    # shellcheck disable=SC2016  # the inner shell expands it
    "${space[@]}" bash -c 'mount -t tmpfs -o size=8k none directory || exit
        head -c 4000 /dev/zero | tr "\\0" x >directory/log
        echo >>directory/log
        head -c 4096 /dev/zero >directory/full
        "$@"; echo "status $?"
        rm directory/full
        "$@"; echo "status $?"
        cp directory/log log' bash "$mahyrei" --log directory/log verify "$header" "$marker" slots \
        >"$said/out" 2>&1
    same 'a log on a full disk' \
        $'mahyrei: directory/log: No space left on device\nstatus 2\nstatus 0' "$(out)"
    logged log "verify $sound"
    same 'lines that say it is sound' 1 "$(grep -c 'status=0$' log)"
}

# A command that adds no line takes no log; the log is no file named `-`.
test_log_not_taken() {
    begin
    local words
    for words in "header rate=1/2 m=6 N=84 B=120 F=223 W=16 A=2" "inspect $header $marker slots" \
        "show $header slots 0 1" 'explain 3'; do
        # shellcheck disable=SC2086  # several words are meant
        run 2 --log log $words
        has "a log of ${words%% *}" '--log: this command has no such option' "$err"
        prefix=(env MAHYREI_LOG=log)
        # shellcheck disable=SC2086  # several words are meant
        run 0 $words
        prefix=()
        same "a log that ${words%% *} made" no "$([ -e log ] && echo yes || echo no)"
    done
    unharmed 2 '-: the log is a file' --log - write "$header" "$marker" frames out
    prefix=(env MAHYREI_LOG=-)
    unharmed 2 '-: the log is a file' write "$header" "$marker" frames out
    prefix=()
    run 0 --log ./- verify "$header" "$marker" slots
    logged ./- "verify $sound"
}

# A log that another run has made in the meantime stays, though this run has to be refused.
once_log_of_another() {
    begin
    echo 'a line of another run' >lines
    cp lines kept
    prefix=(env "LD_PRELOAD=$faults" SWAP=create:lines:out)
    run 2 --log out write "$header" "$marker" frames out
    prefix=()
    has 'what is said' "out: this is the log's file too" "$err"
    alike 'the log of another run' kept out
}

# What others add to the log during a run stays, be it there before or not: lines go to its end as it
# is then, and not as it was when it was opened.
once_log_at_its_end() {
    begin
    local name held temporary
    echo 'an earlier line' >old
    for name in old new; do
        temporary=''
        : >hold
        env "LD_PRELOAD=$faults" FAULT=hold "$mahyrei" --log "$name" read "$header" "$marker" slots \
            "out.$name" &
        held=$!
        while [ ! -s "$temporary" ] && kill -0 "$held" 2>/dev/null; do # its log is open by then
            for temporary in .mahyrei.*; do :; done
        done
        echo 'a line of another run' >>"$name"
        rm hold
        wait "$held"
        same "status beside another run, $name" 0 $?
        logged "$name" "read $sound"
        same "lines before it, $name" 'a line of another run' "$(tail -n 2 "$name" | head -n 1)"
    done
    same 'lines of both' '3 2' "$(wc -l <old) $(wc -l <new)"
}

# Erasing rests on it: the line of a run that is done is on the disk.
once_log_synced() {
    begin
    prefix=(env "LD_PRELOAD=$faults" FAULT=fsync:3:5) # after the output and its folder
    run 2 --log log read "$header" "$marker" slots out
    has 'a log that does not get to the disk' 'mahyrei: log: Input/output error' "$err"
    prefix=(env "LD_PRELOAD=$faults" FAULT=fsync:2:5) # after the log itself
    rm log
    run 2 --log log verify "$header" "$marker" slots
    has 'a new log whose name does not get to the disk' 'mahyrei: log: Input/output error' "$err"
    prefix=(env "LD_PRELOAD=$faults" FAULT=fsync:1:5)
    run 2 --log /dev/fd/7 verify "$header" "$marker" slots 7>>log
    has 'an open log that does not get to the disk' '/dev/fd/7: Input/output error' "$err"
    prefix=()
}
