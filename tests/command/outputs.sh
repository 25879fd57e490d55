# Where an output goes, and what it keeps.
# shellcheck shell=bash

test_output_streams() {
    begin
    run 2 write "$header" "$marker" frames /dev/full
    has 'a full device' '/dev/full: No space left on device' "$err"
    "$mahyrei" read "$header" "$marker" slots - 2>"$said/err" >/dev/full
    same 'status with a full standard output' 2 $?
    has 'a full standard output' 'standard output: No space left on device' "$(<"$said/err")"
    "$mahyrei" sheet "$header" 2>/dev/null >/dev/full
    same 'status of a sheet that cannot be printed' 2 $?
    "$mahyrei" --help >/dev/full 2>/dev/null
    same 'status of help that cannot be printed' 2 $?
    "$mahyrei" write "$example" "$example_marker" example - 2>"$said/err" | head -c 1 >/dev/null
    same 'status where nobody reads on' 2 "${PIPESTATUS[0]}"
    has 'where nobody reads on' 'Broken pipe' "$(<"$said/err")"
    "$mahyrei" read "$header" "$marker" slots - 2>"$said/err" >&-
    same 'status with standard output closed' 2 $?
    run 0 write "$header" "$marker" frames /dev/null
    same '/dev/null stays a device' yes "$([ -c /dev/null ] && echo yes)"
    mkfifo pipe
    timeout 20 cat pipe >got &
    run 0 write "$header" "$marker" frames pipe
    wait $!
    alike 'slots through a pipe' slots got
    same 'a pipe stays a pipe' yes "$([ -p pipe ] && echo yes)"
    run 0 write "$header" "$marker" frames /dev/stdout
    alike 'slots by the name of standard output' slots "$said/out"
    "$mahyrei" write "$header" "$marker" frames /dev/stdout 2>/dev/null | cmp -s - slots
    same 'the same through a pipe' '0 0' "${PIPESTATUS[*]}"
    # All standard files closed: none of what is said may end up in the output.
    "$mahyrei" write "$header" "$marker" frames out <&- >&- 2>&-
    same 'status with no standard files' 0 $?
    alike 'slots with no standard files' slots out
}

test_links() {
    begin
    mkdir elsewhere
    echo old >elsewhere/real
    ln -s elsewhere/real link
    run 0 write -f "$header" "$marker" frames link
    same 'a link stays a link' elsewhere/real "$(readlink link)"
    alike 'the file that a link leads to' slots elsewhere/real
    same 'files beside it' real "$(ls -A elsewhere)"
    ln -s nowhere astray
    list
    local before=$names
    run 2 write "$header" "$marker" frames astray
    has 'a link that leads nowhere' 'astray: No such file or directory' "$err"
    list
    same 'files after that' "$before" "$names"
    ln -s round round
    run 2 write "$header" "$marker" frames round
    ln elsewhere/real other
    run 0 read -f "$header" "$marker" slots elsewhere/real
    alike 'another hard link keeps the old bytes' slots other
}

test_modes() {
    begin
    prefix=(bash -c 'umask 027; exec "$@"' bash)
    run 0 write "$header" "$marker" frames new
    same 'mode of a new file' 640 "$(stat -c %a new)"
    echo old >out
    chmod 604 out
    run 0 write -f "$header" "$marker" frames out
    same 'mode of a file that is replaced' 604 "$(stat -c %a out)"
    prefix=()
    if [ "$(id -u)" -eq 0 ]; then # nothing is forbidden to root
        prefix=(chroot --userspec=65534:65534 --groups= --skip-chdir /)
        chown -R 65534:65534 "$work"
    fi
    cp frames secret
    chmod 000 secret
    rm -f out
    run 2 write "$header" "$marker" secret out
    has 'frames that may not be read' 'secret: Permission denied' "$err"
    run 2 write secret "$marker" frames out
    has 'a header that may not be read' 'secret: Permission denied' "$err"
    run 0 write "$header" "$marker" frames out
    chmod 444 out
    [ "$(id -u)" -ne 0 ] || chown 65534:65534 out
    cp out kept
    run 2 read -f "$header" "$marker" slots out
    has 'a file that may not be written' 'out: Permission denied' "$err"
    alike 'a file that may not be written' kept out
    mkdir shut
    chmod 555 shut
    [ "$(id -u)" -ne 0 ] || chown 65534:65534 shut
    run 2 write "$header" "$marker" frames shut/out
    has 'a folder that may not be written' \
        'shut/out: no temporary file can be made in shut: Permission denied' "$err"
    chmod 755 shut
    prefix=()
}

# /dev/stdout and the like are the open file: what is in it stays, and what follows comes after.
test_open_files() {
    begin
    local name
    echo before >before
    cat before frames >wanted
    ln -s /dev/stdout link
    ln -s /proc/self/fd folder
    for name in /dev/stdout /dev/fd/1 /proc/self/fd/1 /proc/thread-self/fd/1 /dev/../dev//stdout \
        link folder/1; do
        cp before archive
        "$mahyrei" read "$header" "$marker" slots "$name" >>archive 2>"$said/err"
        same "status with the output $name" 0 $?
        alike "what is after $name" wanted archive
        {
            echo before
            "$mahyrei" read "$header" "$marker" slots "$name" 2>/dev/null
            echo after
        } >group
        alike "what a group of commands says with $name" <(cat wanted && echo after) group
    done
    cp before archive
    "$mahyrei" read "$header" "$marker" slots /dev/fd/7 7>>archive 2>/dev/null
    alike 'a file that was handed over' wanted archive
    same 'files beside it' '' "$(find . -name '.mahyrei*')"
    run 2 read "$header" "$marker" slots /dev/fd/9
    has 'an open file that there is not' '/dev/fd/9: ' "$err"
    # The log has the first free number; nobody handed that over.
    for ((i = 3; i < 10; i++)); do
        run 2 --log log read "$header" "$marker" slots "/dev/fd/$i"
    done
    same 'what else is in a log that was not handed over' '' "$(grep -Ev "$log_line" log)"
    cp before archive
    exec 7>>archive
    run 2 read "$header" "$marker" slots "/proc/$BASHPID/fd/7"
    exec 7>&-
    has 'the open file of another program' 'the open file of another program' "$err"
    alike 'that file' before archive
    cat before slots >input
    {
        read -r _
        "$mahyrei" read "$header" "$marker" /dev/stdin out 2>/dev/null
    } <input
    same 'status with the rest of an open file' 0 $?
    alike 'frames of the rest of an open file' frames out
}

# Status 0 says that the other copy may be erased: what is on a disk has to be there.
once_open_files_synced() {
    begin
    local words
    capture 13 100 1
    printf 'read\t%s\t%s\tslots\tback\n' "$header" "$marker" >list
    for words in "sheet $header" "find $header $marker capture" 'explain 3' 'spread 1/2 3' \
        'header rate=1/2 m=6 N=84 B=120 F=223 W=16 A=2' --help --version \
        "show $header slots 0 3" "inspect $header $marker slots"; do
        # shellcheck disable=SC2086  # several words are meant
        env "LD_PRELOAD=$faults" FAULT=fsync:1:5 "$mahyrei" $words >file 2>"$said/err"
        same "status of $words that does not get to the disk" 2 $?
        has "what is said then" 'standard output: Input/output error' "$(<"$said/err")"
    done
    env "LD_PRELOAD=$faults" FAULT=fsync:1:5 "$mahyrei" batch - <list >file 2>"$said/err"
    same 'status of results that do not get to the disk' 2 $?
    has 'what is said of results' 'standard output: Input/output error' "$(<"$said/err")"
    prefix=(env "LD_PRELOAD=$faults" FAULT=fsync:1:5)
    for name in - /dev/stdout /dev/fd/7; do
        run 2 read "$header" "$marker" slots "$name" 7>file
        has "an open file, as $name, that does not get to the disk" 'Input/output error' "$err"
    done
    "${prefix[@]}" "$mahyrei" read "$header" "$marker" slots - 2>"$said/err" | cmp -s - frames
    same 'a pipe has no disk' '0 0' "${PIPESTATUS[*]}"
    prefix=()
}

# Some disks say only on closing that a write failed, so an open file is closed once too, by another
# number; its own stays open.
once_open_files_closed() {
    begin
    prefix=(env "LD_PRELOAD=$faults" FAULT=close:1:5)
    run 2 read "$header" "$marker" slots -
    has 'standard output that fails when it is closed' \
        'mahyrei: standard output: Input/output error' "$err"
    run 2 read "$header" "$marker" slots /dev/fd/7 7>out
    has 'an open file that fails then' 'mahyrei: /dev/fd/7: Input/output error' "$err"
    run 2 -q sheet "$header"
    has 'text that fails then' 'mahyrei: standard output: Input/output error' "$err"
    run 2 -q find --all "$header" "$marker" slots
    has 'pieces of text that fail then' 'mahyrei: standard output: Input/output error' "$err"
    prefix=()
}

# owned FILE: its owner, group and mode
owned() {
    stat -c '%u %g %a' "$1"
}

test_owners() {
    begin
    if [ "$(id -u)" -ne 0 ]; then
        echo 'command: only root can give a file away; owners are not looked at'
        return
    fi
    echo old >out
    chown 1234:2345 out
    chmod 640 out
    run 0 write -f "$header" "$marker" frames out
    same 'owner, group and mode of a file that is replaced' '1234 2345 640' "$(owned out)"
    # As somebody who may write the file and not give it away: nobody gets more than before.
    chown 65534:65534 .
    prefix=(chroot --userspec=65534:65534 --groups= --skip-chdir /)
    local old
    for old in '666 666' '626 622' '606 600' '066 000' '646 644' '662 622'; do
        echo old >out
        chown 1234:2345 out
        chmod "${old% *}" out
        run 0 write -f "$header" "$marker" frames out
        alike "slots in a file of mode ${old% *}" slots out
        same "who may use what was ${old% *}" "65534 65534 ${old#* }" \
            "$(stat -c '%u %g' out) $(printf %03o $((8#$(stat -c %a out) & 8#777)))"
    done
    echo old >out
    chown 1234:2345 out
    chmod 464 out
    prefix=(chroot --userspec=65534:65534 --groups=2345 --skip-chdir /)
    run 0 write -f "$header" "$marker" frames out
    same 'a group that may be kept' '65534 2345 444' "$(owned out)"
    prefix=()
    chown 0:0 .
}

# A file that only its owner may read has no moment in which others may read what takes its place.
once_modes_on_the_way() {
    begin
    local held temporary=''
    echo old >out
    chmod 600 out
    : >hold
    # shellcheck disable=SC2016  # the inner shell expands it
    env "LD_PRELOAD=$faults" FAULT=holdmode bash -c 'umask 0; exec "$@"' bash "$mahyrei" -qf write \
        "$header" "$marker" frames out &
    held=$!
    while [ ! -s "$temporary" ] && kill -0 "$held" 2>/dev/null; do
        for temporary in .mahyrei.*; do :; done
    done
    same 'the mode of the file on its way' 600 "$(stat -c %a .mahyrei.*)"
    rm hold
    wait "$held"
    same 'status then' 0 $?
    same 'the mode at the end' 600 "$(stat -c %a out)"
    alike 'the file' slots out
}

test_access_lists() {
    begin
    gcc -std=c11 "$root/tests/c/access_list.c" -o list_tool
    echo old >out
    if [ "$(id -u)" -ne 0 ] || ! ./list_tool set out; then
        echo 'command: no access lists here, or not root; they are not looked at'
        return
    fi
    local list
    list=$(./list_tool show out)
    run 0 write -f "$header" "$marker" frames out
    same 'an access list and its mode' "$list 660" "$(./list_tool show out) $(stat -c %a out)"
    # By somebody else: the list would mean something else, and its mask is not the group's.
    chown 65534:65534 .
    prefix=(chroot --userspec=65534:65534 --groups= --skip-chdir /)
    run 0 read -f "$header" "$marker" slots out
    same 'mode where a list cannot be kept' '65534 65534 600' "$(owned out)"
    prefix=()
    chown 0:0 .
    # A list that the folder has for new files is not the old file's.
    ./list_tool default directory
    echo old >plain
    chmod 640 plain
    mv plain directory/plain
    run 0 write -f "$header" "$marker" frames directory/plain
    same 'a file that had no list' 'none 640' \
        "$(./list_tool show directory/plain) $(stat -c %a directory/plain)"
    # A new file has what any program's new file has.
    : >directory/by_shell
    run 0 write "$header" "$marker" frames directory/new
    same 'the list and mode of a new file' \
        "$(./list_tool show directory/by_shell) $(stat -c %a directory/by_shell)" \
        "$(./list_tool show directory/new) $(stat -c %a directory/new)"
}

# Nothing that is there is replaced unasked, with --no-clobber or without it.
test_replacing() {
    begin
    local name word
    echo old >out
    ln -s out link
    for name in out link ./out; do
        for word in --no-clobber -n --quiet; do
            run 2 "$word" write "$header" "$marker" frames "$name"
            has 'a file that is not to be replaced' \
                "$name: this file already exists; --force replaces it" "$err"
            same 'that file' old "$(<out)"
        done
    done
    run 0 --force write "$header" "$marker" frames link
    alike 'slots in a file that is replaced' slots out
    run 0 -nf read "$header" "$marker" slots out # the one word changes nothing
    alike 'frames in a file that is replaced' frames out
    rm out link
    run 0 -n write "$header" "$marker" frames out
    alike 'slots in a new file' slots out
    same 'what is left beside it' '' "$(find . -name '.mahyrei*')"
    run 0 write "$header" "$marker" frames -n /dev/null
    run 0 read "$header" "$marker" slots - -n
    alike 'standard output is no file to be replaced' frames "$said/out"
}

# every STATUS WORD...: each command that writes a file, to `out`
every() {
    local status=$1
    shift
    run "$status" "$@" write "$header" "$marker" frames out
    run "$status" "$@" read "$header" "$marker" slots out
    run "$status" "$@" read --capture "$header" "$marker" capture out
    run "$status" "$@" cut "$header" capture 13 out
    run "$status" "$@" pass-write 1/2 block out
    run "$status" "$@" pass-read 1/2 word out
    run "$status" "$@" uplink-write commands out
    run "$status" "$@" uplink-read commands.slots out
    run "$status" "$@" header -oout rate=1/2 m=6 N=84 B=120 F=223 W=16 A=2
    run "$status" "$@" widen "$(old_header "$header")" out
    run "$status" "$@" narrow "$header" out
    run "$status" "$@" rack-read rack 0 0 1 out
    run "$status" "$@" fades --svg out "$header" clouds
    run "$status" "$@" inspect --svg out "$header" "$marker" slots
}

# Operands that were swapped cost nothing.
test_nothing_is_lost() {
    begin
    capture 13 100 1
    head -c 941 /dev/zero >block
    printf 'command1command2' >commands
    echo 5000 10 >clouds
    "$mahyrei" -q pass-write 1/2 block word
    "$mahyrei" -q uplink-write commands commands.slots
    "$mahyrei" -q rack-load rack 0 0 1 "$header"
    echo old >out
    every 2
    same 'the file that is there' old "$(<out)"
    every 0 --force
    run 2 uplink-write commands.slots commands
    has 'swapped operands' 'commands: this file already exists; --force replaces it' "$err"
    same 'the commands' command1command2 "$(<commands)"
}

# Whoever sits at a terminal is asked; nothing is taken for a yes but a yes.
once_asked() {
    begin
    if ! command -v script >"$said/out"; then
        echo 'command: no script(1) here; nobody is asked on a terminal'
        return
    fi
    local answer name
    for answer in n '' yellow-not x no; do
        echo old >out
        script -qec "$mahyrei --log log read $header $marker slots out; echo status \$?" /dev/null \
            <<<"${answer/yellow-not/ y}" >"$said/out"
        has "what is asked before the answer '$answer'" \
            'mahyrei: out: this file already exists; replace it? [y/N] ' "$(out)"
        has "the status after '$answer'" 'status 2' "$(out)"
        same "the file after '$answer'" old "$(<out)"
    done
    for answer in y Y yes; do
        echo old >out
        script -qec "$mahyrei --log log read $header $marker slots out; echo status \$?" /dev/null \
            <<<"$answer" >"$said/out"
        has "the status after '$answer'" 'status 0' "$(out)"
        alike "the file after '$answer'" frames out
    done
    # Nobody is asked who asked for quiet, or whose answer would be the input.
    echo old >out
    script -qec "$mahyrei -q read $header $marker slots out" /dev/null <<<y >"$said/out"
    same 'a quiet run asks nothing' '' "$(grep '?' "$said/out")"
    same 'and replaces nothing' old "$(<out)"
    for name in - /dev/stdin; do
        script -qec "timeout 20 $mahyrei --log log uplink-write $name out; echo status \$?" /dev/null \
            <<<y >"$said/out"
        has "a run that reads $name asks nothing" \
            'mahyrei: out: this file already exists; --force replaces it' "$(out)"
        has "the status where $name is read" 'status 2' "$(out)"
        same "the file where $name is read" old "$(<out)"
    done
}

# A folder that is missing is found before the work, not after it.
test_missing_folder() {
    begin
    local words
    head -c 941 /dev/zero >block
    for words in "write $header $marker FROM none/out" "read $header $marker FROM none/out" \
        "cut $header FROM 0 none/out" 'pass-write 1/2 FROM none/out' 'uplink-read FROM none/out' \
        'widen FROM none/out' "fades --svg none/out $header FROM" \
        "inspect --svg none/out $header $marker FROM"; do
        # shellcheck disable=SC2086  # several words are meant
        run 2 ${words/FROM/absent} # which is read later, and would be missed
        has "what is said by $words" \
            'none/out: its folder cannot be opened: none: No such file or directory' "$err"
        same "nothing else is looked at by $words" '' "$(grep absent: "$said/err")"
    done
    run 2 write "$header" "$marker" frames frames/out
    has 'a file as folder' 'frames/out: its folder cannot be opened: frames: Not a directory' "$err"
    run 2 write -f "$header" "$marker" absent directory
    has 'a folder as output' 'directory: Is a directory' "$err"
    same 'nothing else is looked at before that' '' "$(grep absent: "$said/err")"
    # Nor is a folder in which nothing can be made, or a file that may not be written.
    mkdir shut
    echo old >kept
    chmod 444 kept
    chmod 555 shut
    if [ "$(id -u)" -eq 0 ]; then # nothing is forbidden to root
        chown -R 65534:65534 .
        prefix=(chroot --userspec=65534:65534 --groups= --skip-chdir /)
    fi
    run 2 write "$header" "$marker" absent shut/out
    has 'a folder that may not be written' 'shut/out: no temporary file can be made in shut: ' "$err"
    same 'nothing else is looked at before that' '' "$(grep absent: "$said/err")"
    run 2 write -f "$header" "$marker" absent kept
    has 'a file that may not be written' 'kept: Permission denied' "$err"
    same 'nothing else is looked at before that' '' "$(grep absent: "$said/err")"
    prefix=()
    chmod 755 shut
}

# A file that appears between the last look and the renaming stays too.
once_replacing_last_moment() {
    begin
    local fault
    for fault in '' noreplace:1:22; do # by renaming, and where that is not there by a second name
        cp marker precious
        env "LD_PRELOAD=$faults" FAULT="$fault" SWAP=rename:precious:out "$mahyrei" -q write \
            "$header" "$marker" frames out 2>"$said/err"
        same "status where a file appears at last, $fault" 2 $?
        has 'what is said' 'out: this file already exists; --force replaces it' "$(<"$said/err")"
        alike "the file that appeared, $fault" marker out
        same 'what is left beside it' '' "$(find . -name '.mahyrei*')"
        rm out
    done
}

# A link that leads to the output by the time at which it is read: what was read is known by its
# file, and does not go.
once_input_becomes_output() {
    begin
    capture 13 100 1
    cp capture other
    "$mahyrei" -q rack-load rack 0 0 1 "$header"
    local words from
    for words in "cut $header link 13 out" "read --capture $header $marker link out" \
        'rack-read link 0 0 1 out'; do
        from=capture
        [[ $words != rack-* ]] || from=rack
        cp "$from" out
        ln -sf other link
        ln -sf out next
        prefix=(env "LD_PRELOAD=$faults" SWAP=folder:next:link)
        # shellcheck disable=SC2086  # several words are meant
        run 2 --force $words
        prefix=()
        same "the link leads to the output by then, $words" out "$(readlink link)"
        has "what is said by $words" 'out: this is the ' "$err"
        alike "what was read by $words" "$from" out
    done
}

# A pipe when it is looked at, and a file when it is opened: it is not written over in place.
once_output_becomes_file() {
    begin
    mkfifo pipe
    cp frames precious
    ln -s precious next
    env "LD_PRELOAD=$faults" SWAP=open:next:pipe "$mahyrei" -q write "$header" "$marker" frames pipe \
        2>"$said/err"
    same 'status where a pipe became a file' 2 $?
    has 'what is said' 'pipe: this was not a file when it was checked, and is one now' \
        "$(<"$said/err")"
    alike 'the file' frames precious
}

# The output becomes the capture, by another name, while the run is read.
once_output_becomes_capture() {
    begin
    capture 13 100 1
    cp capture kept
    local words
    for words in "read --capture $header $marker capture out" "cut $header capture 13 out"; do
        rm -f out next
        ln capture next
        # shellcheck disable=SC2086  # several words are meant
        env "LD_PRELOAD=$faults" SWAP=fsync:next:out "$mahyrei" -q --force $words 2>"$said/err"
        same "status of $words" 2 $?
        has "what is said by $words" 'out: this is the capture' "$(<"$said/err")"
        alike "the capture after $words" kept out
    done
    "$mahyrei" -q rack-load rack 0 0 1 "$header"
    cp rack kept
    ln rack next
    rm -f out
    env "LD_PRELOAD=$faults" SWAP=fsync:next:out "$mahyrei" -q --force rack-read rack 0 0 1 out \
        2>"$said/err"
    same 'status of a header over the rack' 2 $?
    has 'what is said of it' 'out: this is the rack' "$(<"$said/err")"
    alike 'the rack' kept out
    same 'what is left beside it' '' "$(find . -name '.mahyrei*')"
}

# A file that comes into being while the run is on its way.
once_replacing_late() {
    begin
    local late
    mkfifo pipe
    "$mahyrei" write "$header" "$marker" pipe out 2>"$said/err" &
    late=$!
    timeout 20 bash -c 'exec 7>pipe; echo late >out; cat frames >&7' # waits for the reader
    wait "$late"
    same 'status where the file came late' 2 $?
    same 'the file that came late' late "$(<out)"
    same 'what is left beside it' '' "$(find . -name '.mahyrei*')"
}
