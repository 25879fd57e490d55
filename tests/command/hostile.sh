# Full disks, little memory, failing systems, killed runs.
# shellcheck shell=bash

# A disk with too little room, and files that may not grow.
once_full_disk() {
    begin
    prefix=(bash -c 'ulimit -f 1000; exec "$@"' bash)
    unharmed 2 'out: File too large' write "$example" "$example_marker" example out
    logged "$said/err" "write header=$example marker=16 frames=446 slots=- answer=0 place=0 status=2"
    prefix=()
    local space=(unshare -m)
    [ "$(id -u)" -eq 0 ] || space=(unshare -rm)
    if ! "${space[@]}" mount -t tmpfs -o size=1m none directory 2>/dev/null; then
        echo 'command: no small disk can be mounted here; a file size limit stands in for it'
        return
    fi
    # shellcheck disable=SC2016  # the inner shell expands it
    "${space[@]}" bash -c 'mount -t tmpfs -o size=1m none directory || exit
        "$@" directory/out; echo "status $?"; ls -A directory
        echo old >directory/out
        "$@" directory/out; echo "status $?"; ls -A directory; cat directory/out' bash \
        "$mahyrei" --log /dev/null write -f "$example" "$example_marker" example >"$said/out" 2>&1
    local failed='mahyrei: directory/out: No space left on device'
    same 'a run on a full disk' "$failed"$'\nstatus 2\n'"$failed"$'\nstatus 2\nout\nold' "$(out)"
}

once_little_memory() {
    begin
    head -c 131072 /dev/zero >many
    prefix=(bash -c 'ulimit -v 100000; exec "$@"' bash)
    unharmed 2 'memory: Cannot allocate memory' write "$largest" "$largest_marker" many out
    prefix=()
}

# The system fails the command at each step of an output.
once_faults() {
    begin
    for fault in read:1:5 write:1:28 write:1:5 fsync:1:5 close:1:5 rename:1:5; do
        prefix=(env "LD_PRELOAD=$faults" "FAULT=$fault")
        unharmed 2 'mahyrei: ' write "$header" "$marker" frames out
    done
    echo old >out
    prefix=(env "LD_PRELOAD=$faults" FAULT=fchmod:1:1)
    run 2 write -f "$header" "$marker" frames out
    same 'an output whose mode cannot be kept' old "$(<out)"
    prefix=(env "LD_PRELOAD=$faults" FAULT=fsync:2:5) # the folder, after the renaming
    run 2 write -f "$header" "$marker" frames out
    alike 'an output whose folder may not be on the disk' slots out
    prefix=(env "LD_PRELOAD=$faults" FAULT=fsync:2:22) # a file system that cannot do that
    run 0 write -f "$header" "$marker" frames out
    prefix=(env "LD_PRELOAD=$faults" FAULT=fsync:1:4) # interrupted
    run 0 write -f "$header" "$marker" frames out
    prefix=(env "LD_PRELOAD=$faults" FAULT=slow)
    rm out
    run 0 write "$header" "$marker" frames out
    alike 'slots, bit by bit' slots out
    run 0 read "$header" "$marker" - - <slots
    alike 'frames, bit by bit' frames "$said/out"
    prefix=()
}

# held WORD...: starts a run through these words, its process in $held, and waits until it is about
# to bring its output to the disk; there it stays as long as there is a file `hold`
held() {
    local temporary=''
    : >hold
    rm -f .mahyrei.*
    # shellcheck disable=SC2016  # the inner shell expands it
    "$@" env "LD_PRELOAD=$faults" FAULT=hold bash -c 'ulimit -c 0; exec "$@"' bash \
        "$mahyrei" --log /dev/null write -f "$header" "$marker" frames out &
    held=$!
    while [ ! -s "$temporary" ] && kill -0 "$held"; do
        for temporary in .mahyrei.*; do :; done
    done
}

# ended SIGNAL: a held run, ended by this signal
ended() {
    local signal=$1 status
    held env --default-signal
    kill -s "$signal" "$held"
    for ((i = 0; i < 200 && $(kill -0 "$held" && echo 1 || echo 0); i++)); do
        sleep 0.02
    done
    kill -KILL "$held"
    wait "$held" 2>/dev/null
    status=$?
    same "status after signal $signal" "$signal" "$(kill -l "$status")"
    same "output after signal $signal" old "$(<out)"
    [ "$signal" != KILL ] || rm .mahyrei.* # nothing can remove it then
    same "what signal $signal leaves" '' "$(find . -name '.mahyrei*')"
}

# Nothing half written has the output's name, and no signal but SIGKILL leaves anything behind.
once_ended_by_any_signal() {
    begin
    echo old >out
    for signal in KILL HUP INT QUIT ILL TRAP ABRT BUS FPE USR1 SEGV USR2 ALRM TERM STKFLT XCPU \
        VTALRM PROF IO PWR SYS RTMIN RTMAX; do
        ended "$signal" 2>/dev/null
    done
    rm out # as if none had been there
    held env 2>/dev/null
    kill -KILL "$held"
    wait "$held" 2>/dev/null
    same 'output after SIGKILL where none was there' no "$([ -e out ] && echo yes || echo no)"
    held env --ignore-signal=HUP 2>/dev/null # as under nohup
    kill -HUP "$held"
    sleep 0.1
    rm hold
    wait "$held"
    same 'status where SIGHUP is ignored' 0 $?
    alike 'slots where SIGHUP is ignored' slots out
}

once_largest() {
    begin
    head -c 131072 /dev/zero >many
    run 0 write "$largest" "$largest_marker" many out
    same 'slot bytes of the largest run' 182128720 "$(stat -c %s out)"
    run 0 read "$largest" "$largest_marker" out back
    alike 'frames of the largest run' many back
}

# The library wants less than 1 MiB of stack; the command brings its own.
once_little_stack() {
    begin
    for size in 400 100 64; do
        prefix=(bash -c "ulimit -s $size; exec \"\$@\"" bash)
        run 0 write -f "$header" "$marker" frames out
        alike "slots on a stack of $size KiB" slots out
        run 0 read -f "$header" "$marker" slots back
        alike "frames on a stack of $size KiB" frames back
        run 0 sheet "$header"
        same "a sheet on a stack of $size KiB" '1/2 16 5 189 500 5 3 2 11355 227100 1' "$(out)"
        run 1 sheet 00
        run 0 header rate=1/2 m=4 N=5 B=189 F=500 W=5 A=3
    done
    rm out
    prefix=(env "LD_PRELOAD=$faults" FAULT=thread:1:11)
    unharmed 2 'a stack of 4 MiB for the library: ' write "$header" "$marker" frames out
    prefix=()
}

# Standard files that do not block are waited for.
once_nonblocking() {
    begin
    prefix=(env "LD_PRELOAD=$faults" FAULT=nonblocking)
    "$mahyrei" write "$example" "$example_marker" example wanted 2>/dev/null
    (sleep 0.2 && head -c 100 example && sleep 0.2 && tail -c +101 example) |
        "${prefix[@]}" "$mahyrei" write "$example" "$example_marker" - - 2>"$said/err" |
        (sleep 0.2 && cat >got)
    same 'status with files that do not block' '0 0 0' "${PIPESTATUS[*]}"
    alike 'slots through files that do not block' wanted got
    # What is said waits too.
    # shellcheck disable=SC2016  # the inner shell expands it
    "${prefix[@]}" bash -c '"$1" read 00 00 slots out & (yes | head -c 100000 >&2); wait $!' bash \
        "$mahyrei" 2>&1 >/dev/null | (sleep 0.2 && cat) >said_late
    has 'a refusal through a full pipe' 'refused, number 1' "$(tr -d '\0' <said_late)"
    prefix=()
}

# A file that may be written in a folder that may not, and one that is mounted: said, with where.
test_unwritable_folder() {
    begin
    local as=()
    mkdir shut
    echo old >shut/out
    if [ "$(id -u)" -eq 0 ]; then
        as=(chroot --userspec=65534:65534 --groups= --skip-chdir /)
        chown -R 65534:65534 shut
    fi
    chmod 555 shut
    prefix=("${as[@]}")
    run 2 write "$header" "$marker" frames shut/out
    has 'a file in a folder that may not be written' \
        'shut/out: no temporary file can be made in shut: Permission denied' "$err"
    same 'that file' old "$(<shut/out)"
    chmod 311 shut # files can be made there, but it cannot be brought to the disk
    run 2 write "$header" "$marker" frames shut/new
    has 'a folder that may not be read' \
        'shut/new: its folder cannot be opened: shut: Permission denied' "$err"
    chmod 755 shut
    prefix=()
}

once_mounted_file() {
    begin
    local space=(unshare -m)
    [ "$(id -u)" -eq 0 ] || space=(unshare -rm)
    echo old >out
    echo old >mounted
    if ! "${space[@]}" mount --bind mounted out 2>/dev/null; then
        echo 'command: nothing can be mounted here; an output that is mounted is not tried'
        return
    fi
    # shellcheck disable=SC2016  # the inner shell expands it
    "${space[@]}" bash -c 'mount --bind mounted out && "$@"; echo "status $?"; cat out; ls -A' bash \
        "$mahyrei" --log /dev/null write -f "$header" "$marker" frames out >"$said/out" 2>&1
    has 'an output that is mounted' \
        $'out: the finished file cannot take this name in .: Device or resource busy\nstatus 2\nold' \
        "$(out)"
    same 'what is left beside it' '' "$(grep mahyrei\\. "$said/out")"
}
