# batch: many runs of a list.
# shellcheck shell=bash

# Six runs, written; `list` as tabs, `made` has their slots as `write` makes them.
begin_batch() {
    begin
    mkdir made
    : >list
    for run in 1 2 3 4 5 6; do
        sed "s/Frame/Run $run:/g" frames | head -c 1500 >"f$run"
        "$mahyrei" -q write "$header" "$marker" "f$run" "made/s$run"
        printf 'write\t%s\t%s\tf%s\ts%s\n' "$header" "$marker" "$run" "$run" >>list
    done
}

# batched STATUS DONE BEFORE REFUSED FAILED LEFT WORD...
batched() {
    local status=$1
    local wanted="mahyrei: $(($2 + $3 + $4 + $5 + $6)) runs: $2 done, $3 done before, $4 refused,"
    wanted+=" $5 failed, $6 left"
    shift 6
    run "$status" batch "$@"
    same "what batch $* says in the end" "$wanted" "$(tail -n 1 "$said/err")"
}

# made_all: the six outputs are there
made_all() {
    for run in 1 2 3 4 5 6; do
        alike "output $run of a list" "made/s$run" "s$run"
    done
}

# Each line of results is JSON; where the last of a run claims that it is done, it has the digests of
# the files that are there.
honest() {
    local claim
    command -v python3 >"$said/out" || return
    claim=$(python3 - "$1" <<'PYTHON'
import hashlib, json, os, sys
last = {}
for line in open(sys.argv[1]):
    result = json.loads(line)
    last[result["run"], result["frames"], result["slots"]] = result
for result in last.values():
    for what in ("frames", "slots"):
        if result["status"] == 0:
            data = open(os.fsencode(result[what]), "rb").read()
            if hashlib.sha256(data).hexdigest() != result[what + "_sha256"]:
                print("line", result["line"], what)
PYTHON
    )
    same "digests in $1" '' "$claim"
}

test_batch() {
    begin_batch
    batched 0 6 0 0 0 0 list
    made_all
    same 'lines of results' 6 "$(wc -l <list.results)"
    honest list.results
    has 'a line of results' '"header_hex": "50157A3E828304000000", "marker_hex": "05000C0309"' \
        "$(<list.results)"
    local before
    before=$(stat -c '%n %i %Y' s? | xargs)
    batched 0 0 6 0 0 0 list
    same 'no line for what was done' 6 "$(wc -l <list.results)"
    same 'what is done is left alone' "$before" "$(stat -c '%n %i %Y' s? | xargs)"
    # What is no longer as the results say is made again: what is gone, and what the list itself has
    # written and whose input is another. What others have written is not replaced unasked.
    printf x >>s1
    rm s2
    printf '\x01' | dd of=s3 bs=1 seek=100 conv=notrunc 2>"$said/err"
    cp f5 f4
    cp made/s5 made/s4
    cp s1 kept1
    cp s3 kept3
    batched 2 2 2 0 2 0 --jobs 1 list
    alike 'an output that was changed' kept1 s1
    alike 'another that was changed' kept3 s3
    has 'why it is left alone' 's1: this file already exists; --force replaces it' \
        "$(<list.results)"
    batched 0 2 4 0 0 0 --force list
    made_all
    honest list.results
    batched 0 0 6 0 0 0 list
    sed -i 's/05000C0309/05000C030A/' list # another marker
    batched 0 6 0 0 0 0 list
    same 'with another marker' no "$(cmp -s s1 made/s1 || echo no)"
    # Without results, an output that has the very bytes is done.
    rm list.results
    before=$(stat -c '%n %i %Y' s? | xargs)
    batched 0 6 0 0 0 0 list
    same 'outputs that are as they should be' "$before" "$(stat -c '%n %i %Y' s? | xargs)"
    # Another file is not replaced.
    rm list.results
    echo old >s1
    batched 2 5 0 0 1 0 list
    same 'a file that no result speaks of' old "$(<s1)"
    batched 0 1 5 0 0 0 -f list
    run 0 --quiet batch list
    same 'nothing is said' '' "$err"
}

# Refusals and failures of some runs do not stop the others, and are tried again.
test_batch_goes_on() {
    begin_batch
    printf 'short' >f2
    rm f4
    mkdir s6 # found before anything is begun
    unharmed 2 'line 6 of the list: an operand is not a file' batch list
    same 'nothing was begun' no "$([ -e s1 ] || [ -e list.results ] || echo no)"
    rmdir s6
    batched 2 4 0 1 1 0 list
    for run in 1 3 5 6; do
        alike "output $run beside a refusal" "made/s$run" "s$run"
    done
    same 'no output of the others' '' "$(ls s2 s4 2>/dev/null)"
    has 'the refusal' '"number": 8, "place": 0, "sentence": "The marker or the frames are' "$(<list.results)"
    has 'what is said of it' 'f2: the frames have 5 bytes' "$(<list.results)"
    has 'the failure' 'f4: No such file or directory' "$(<list.results)"
    honest list.results
    cp f1 f4
    cp made/s1 made/s4
    prefix=(env --ignore-signal=CHLD)
    batched 1 1 4 1 0 0 list
    prefix=()
    cp f1 f2
    cp made/s1 made/s2
    batched 0 1 5 0 0 0 list
    made_all
    # A run that was done and then failed is not done.
    mv f3 away
    batched 2 0 5 0 1 0 list
    mv away f3
    batched 0 1 5 0 0 0 list
    # NUL bytes in the place of a line, as a power cut leaves them, end nothing: the lines before and
    # after them count.
    cp list.results whole
    {
        head -n 3 whole
        head -c 300 /dev/zero
        echo
        tail -n +4 whole
        head -c 4096 /dev/zero
    } >list.results
    batched 0 0 6 0 0 0 list
    rm s5
    batched 0 1 5 0 0 0 list
    same 'the line after NUL bytes' 1 "$(tail -n 1 list.results | tr -d '\0' | grep -c '^{.*}$')"
    batched 0 0 6 0 0 0 list
    cp whole list.results
    # A line that was cut off in the middle is none, and none is joined to it.
    head -c -20 list.results >rest
    mv rest list.results
    batched 0 1 5 0 0 0 list
    same 'the line after a broken one' 1 "$(tail -n 1 list.results | grep -c '^{.*}$')"
    batched 0 0 6 0 0 0 list
    # One whose line is missing in the log has failed, although its output is there.
    rm list.results
    batched 2 0 0 0 6 0 --log /dev/full list
    made_all
    batched 0 6 0 0 0 0 list
}

# Names of any bytes, in JSON; a list of reads; results as a list; a list on standard input.
test_batch_json() {
    begin
    local odd=$'a "b"\\\n\t\xFF\xC3\xA9\x7F'
    cp frames "$odd"
    local name='a \"b\"\\\n\t\udcff\u00e9\u007f'
    printf '{"run": "write", "header": "%s", "marker": "marker", "frames": "%s", "slots": "o\\u0301 \\ud83d\\ude00", "more": 7}\n' \
        "$header" "$name" >list
    printf ' {"slots":"slots","run":"read","marker":"%s","header":"header","frames":"back"}\n\n' \
        "$marker" >>list
    batched 0 2 0 0 0 0 list
    alike 'slots under an odd name' slots $'o\xCC\x81 \xF0\x9F\x98\x80'
    alike 'frames of a list' frames back
    honest list.results
    batched 0 0 2 0 0 0 list
    cp list.results again
    batched 0 2 0 0 0 0 again
    batched 0 0 2 0 0 0 list --results again
    batched 0 2 0 0 0 0 - <list
    same 'results on standard output' 2 "$(grep -c '"status": 0, "run": ' "$said/out")"
    batched 0 0 0 0 0 0 empty
}

test_batch_wrong_lists() {
    begin_batch
    local wrong lines=(
        "write	$header	$marker	f1"
        "write	$header	$marker	f1	out	more"
        "sheet	$header	$marker	f1	out"
        "write $header $marker f1 out"
        "write	$header	$marker	f1	out"$'\r'
        '{"run": "write", "header": "header", "marker": "marker", "frames": "f1"}'
        '{"run": "sheet", "header": "header", "marker": "marker", "frames": "f1", "slots": "out"}'
        '{"run": "write", "header": "header", "marker": 5, "frames": "f1", "slots": "out"}'
        '{"run": "write", "run": "read", "header": "header", "marker": "marker", "frames": "f1", "slots": "out"}'
        '{"run": "write", "header": "header", "marker": "marker", "frames": "f1", "slots": "o\u0000"}'
        '{"run": "write", "header": "header", "marker": "marker", "frames": "f1", "slots": "\ud800"}'
        '{"run": "write", "header": "header", "marker": "marker", "frames": "f1", "slots": "out"'
        '{"run": "write", "header": ["header"], "marker": "marker", "frames": "f1", "slots": "out"}'
        '{} {}' '{' '"'
    )
    for wrong in "${lines[@]}"; do
        printf '%s\n' "$(head -n 1 list)" "$wrong" >wrong
        unharmed 2 'line 2 of the list: ' batch wrong
    done
    for wrong in "write	$header	$marker	f2	s1" "write	$header	$marker	f2	./s1" \
        "read	$header	$marker	s1	back" "write	$header	s1	f2	s2" "read	$header	$marker	f9	f1" \
        "write	$header	$marker	f2	f2" "write	$header	$marker	f2	$work/directory/../s1"; do
        printf '%s\n' "$(head -n 1 list)" "$wrong" >wrong
        unharmed 2 'it names a file that another run writes, or itself' batch wrong
    done
    for wrong in - /dev/stdin directory /dev/null; do
        printf 'write\t%s\t%s\t%s\ts1\n' "$header" "$marker" "$wrong" >wrong
        unharmed 2 'line 1 of the list: an operand is not a file' batch wrong
        printf 'write\t%s\t%s\tf1\t%s\n' "$header" "$marker" "$wrong" >wrong
        unharmed 2 'line 1 of the list: an operand is not a file' batch wrong
    done
    printf 'write\t%s\t%s\tf1\tout\0\n' "$header" "$marker" >wrong
    unharmed 2 'a NUL in a line' batch wrong
    unharmed 2 'line 1 of the list: it names the list, its results or the log' batch list --results f1
    unharmed 2 'line 2 of the list: it names the list, its results or the log' batch list --log f2
    unharmed 2 'have to be different files' batch list --results list
    unharmed 2 'have to be different files' batch list --results results --log results
    ln list linked
    ln f1 linked.f1
    unharmed 2 'have to be different files' batch list --results linked
    unharmed 2 'have to be different files' batch list --log linked
    unharmed 2 'line 1 of the list: it names the list, its results or the log' \
        batch list --results linked.f1
    unharmed 2 'line 1 of the list: it names the list, its results or the log' \
        batch list --log linked.f1
    cp list listed
    "$mahyrei" batch - <list >>linked 2>"$said/err"
    same 'status of a list that gets its own results' 2 $?
    alike 'that list' listed list
    rm linked linked.f1 listed
    unharmed 2 'results go to a file' batch list --results /dev/full
    unharmed 2 'directory: Is a directory' batch list --results directory
    unharmed 2 'none: No such file' batch none
    unharmed 2 'a number from 1 on' batch list --jobs 0
    unharmed 2 'not a number' batch list --jobs all
    alike 'frames after all that' f1 <(sed 's/Frame/Run 1:/g' frames | head -c 1500)
    batched 0 6 0 0 0 0 list --log log
    same 'lines of the log' '6 6' "$(wc -l <log) $(grep -c ' write header=.* status=0$' log)"
}

# Results that cannot be written end the list, and nothing is claimed.
once_batch_faults() {
    begin_batch
    prefix=(env LD_PRELOAD="$faults" FAULT=write:1:28)
    run 2 batch list
    has 'a full disk' 'list.results: No space left on device' "$err"
    same 'no claim' 0 "$(grep -c '"status": 0' list.results)"
    has 'what failed' ': No space left on device"' "$(<list.results)"
    same 'no sentence that says otherwise' 0 "$(grep -c 'All is well' list.results)"
    prefix=(env LD_PRELOAD="$faults" FAULT=fsync:2:5) # after the folder of the results
    run 2 batch list
    has 'a disk that fails' ' 6 failed, 0 left' "$err"
    has 'a disk that fails' 'list.results: Input/output error' "$err"
    prefix=(env LD_PRELOAD="$faults" FAULT=slow)
    batched 0 6 0 0 0 0 list
    made_all
    honest list.results
    prefix=()
    batched 0 0 6 0 0 0 list
    prefix=(env LD_PRELOAD="$faults" FAULT=setlk:1:37)
    run 2 batch list
    has 'results that cannot be locked' 'list.results: this file cannot be locked: No locks available' \
        "$err"
    same 'nobody else is blamed' 0 "$(grep -c 'another batch' "$said/err")"
    rm list.results
    prefix=(env LD_PRELOAD="$faults" FAULT=fsync:1:5)
    run 2 batch list
    has 'results whose name does not get to the disk' 'list.results: Input/output error' "$err"
    prefix=()
    batched 0 6 0 0 0 0 list
    # Results that others add lines to, too, as under GNU parallel.
    head -c -20 list.results >torn
    tail -n 1 list >one
    rm s6
    "$mahyrei" batch - <one >>torn 2>"$said/err"
    same 'a line after a broken one, on standard output' 1 "$(tail -n 1 torn | grep -c '^{.*}$')"
    if ! command -v python3 >"$said/out"; then
        echo 'command: no python3 here; digests and locks of results are not looked at'
        return
    fi
    python3 -c 'import fcntl, time
file = open("list.results", "a")
fcntl.lockf(file, fcntl.LOCK_EX)
open("held", "w")
time.sleep(60)' &
    local holder=$!
    until [ -e held ]; do sleep 0.05; done
    run 2 batch list
    has 'two lists at once' 'list.results: another batch is using it' "$err"
    kill "$holder"
    wait "$holder" 2>/dev/null
}

once_batch_progress() {
    if ! command -v script >"$said/out"; then
        return
    fi
    begin
    "$mahyrei" -q write "$example" "$example_marker" example run
    for ((run = 0; run < 40; run++)); do
        printf 'read\t%s\t%s\trun\tback%s\n' "$example" "$example_marker" "$run"
    done >list
    local wiped=$'\r\e\\[K' form begun=${EPOCHREALTIME/./}
    form="^(${wiped}mahyrei: [0-9]+ of 40 runs, [0-9]+\\.[05] s)*($wiped)?mahyrei: 40 runs: 40 done"
    script -qec "$mahyrei batch --jobs 1 list" /dev/null </dev/null >"$said/out"
    same "progress of a list: $(cat -v "$said/out")" yes "$([[ $(out) =~ $form ]] && echo yes)"
    if ((${EPOCHREALTIME/./} - begun > 1000000)); then # not on a machine that is done before
        has 'the beginning of it' ' of 40 runs, 0.5 s' "$(out)"
    fi
}

# children PROCESS: those it has now, in $children; false where there are none
children() {
    children=$(<"/proc/$1/task/$1/children")
    [ -n "$children" ]
}

# until_state PROCESS STATES: it is in one of these, such as T and Z, or gone
until_state() {
    while grep -q "^State:.[^$2]" "/proc/$1/status" 2>/dev/null; do sleep 0.01; done
}

# halted COUNT: begins `list` until it and its runs are stopped with some of so many still to do; the
# processes are in $batch and $children
halted() {
    for ((try = 0; try < 20; try++)); do
        rm -f list.results out*
        "$mahyrei" batch --jobs 2 list 2>"$said/err" &
        batch=$!
        until [ -s list.results ]; do sleep 0.01; done
        kill -STOP "$batch"
        until_state "$batch" TZ
        if children "$batch" && [ "$(wc -l <list.results)" -lt "$1" ]; then
            for child in $children; do
                kill -STOP "$child"
                until_state "$child" TZ
            done
            return
        fi
        kill -CONT "$batch"
        wait "$batch"
    done 2>/dev/null
}

# Ended in the middle: whatever is claimed is there, no run goes on without the list, and the rest is
# made when it is started again.
once_batch_killed() {
    begin
    local count=10 batch shorter before status lines
    shorter=$(header 1 6 84 30 223 16 2) # two megabytes of slots
    for ((run = 0; run < count; run++)); do
        printf 'write\t%s\t%s\texample\tout%s\n' "$shorter" "$example_marker" "$run"
    done >list
    for signal in TERM KILL; do
        halted "$count"
        before=$(ls out*)
        kill -s "$signal" "$batch"
        kill -CONT "$batch" 2>/dev/null
        wait "$batch" 2>/dev/null
        same "status after SIG$signal" "$signal" "$(kill -l $?)"
        for child in $children; do
            kill -CONT "$child" 2>/dev/null
            until_state "$child" Z
        done
        same "no run goes on after SIG$signal" "$before" "$(ls out*)"
        same "temporary files after SIG$signal" '' "$(find . -name '.mahyrei*')"
        honest list.results
        lines=$(grep -c '"status": 0' list.results)
        batched 0 "$((count - lines))" "$lines" 0 0 0 list
        honest list.results
    done
    # One of its runs is killed; it may just have ended.
    for ((try = 0; try < 20; try++)); do
        halted "$count"
        # shellcheck disable=SC2086  # several words are meant
        kill -KILL ${children%% *}
        # shellcheck disable=SC2086  # several words are meant
        kill -CONT ${children#* } "$batch" 2>/dev/null
        wait "$batch"
        status=$?
        [ "$status" -eq 0 ] || break
    done 2>/dev/null
    same 'status after a run was killed' 2 "$status"
    same 'runs that were killed' 1 "$(grep -c '"status": 2, .*"signal": 9' list.results)"
    same 'runs that were not' "$((count - 1))" "$(grep -c '"status": 0' list.results)"
    rm -f .mahyrei.* # SIGKILL can leave one
    batched 0 1 "$((count - 1))" 0 0 0 list
}

# The same list under GNU parallel, as the manual has it but on this machine, and as tasks of Slurm.
once_batch_elsewhere() {
    begin_batch
    local line PATH=$folder/bin:$PATH
    # shellcheck disable=SC2016  # the manual has it so
    line=$(sed -n 's/^    \(sed -n "\${SLURM_ARRAY_TASK_ID}p" .*\)/\1/p' "$root/docs/manual/batch.md")
    same 'the line of a task in the manual' yes "$([ -n "$line" ] && echo yes)"
    for task in 1 2 3 4 5 6 7; do
        SLURM_ARRAY_TASK_ID=$task bash -c "$line" 2>"$said/err"
        same "status of task $task" 0 $?
    done
    made_all
    cat list.results.* >list.results
    batched 0 0 6 0 0 0 list
    rm -f list.results* s?
    if ! parallel --version 2>"$said/err" | grep GNU >"$said/out"; then
        echo 'command: no GNU parallel here; the list is not tried under it'
        return
    fi
    line=$(sed -n 's/^    \(parallel .*\)/\1/p' "$root/docs/manual/batch.md")
    same 'the line of parallel in the manual' yes "$([[ $line == *rack1,rack2* ]] && echo yes)"
    mkdir home
    HOME=$work/home bash -c "${line/rack1,rack2/2\/:}" 2>"$said/err" </dev/null
    same 'status of parallel' 0 $?
    made_all
    same 'lines of results' 6 "$(grep -c '"status": 0' list.results)"
    batched 0 0 6 0 0 0 list
}

# Lines that begin with #, and runs that are refused or fail, which are named.
test_batch_remarks() {
    begin
    damage lose 7000
    printf '# the runs of Monday\n\nread\t%s\t%s\tslots\tone\n  # and a damaged one\n' "$header" "$marker" >list
    printf 'read\t%s\t%s\tdamaged\ttwo\nread\t%s\t%s\tnone\tthree\n' "$header" "$marker" "$header" "$marker" >>list
    run 2 batch --jobs 1 list
    alike 'the run among remarks' frames one
    has 'a refused run' "mahyrei: line 5 of the list: refused, number 10, place 7000: $(sentence 10)"$'\n' "$err"
    has 'a run that failed' 'mahyrei: line 6 of the list: none: No such file' "$err"
    has 'the counts' '3 runs: 1 done, 0 done before, 1 refused, 1 failed, 0 left' "$err"
    same 'lines of all that' 3 "$(wc -l <"$said/err")"
    run 2 -q batch --jobs 1 list
    has 'a refused run, quietly' 'mahyrei: line 5 of the list: refused, number 10' "$err"
    same 'lines of that' 2 "$(wc -l <"$said/err")"
}

# Every kind of run that a list can have: made, told in the results, and left out the next time.
test_batch_kinds() {
    begin
    local run
    capture 13 5 1
    head -c 1882 <(yes 'blocks of a pass') >blocks
    head -c 16 frames >commands
    "$mahyrei" -q pass-write 1/2 blocks words
    "$mahyrei" -qf pass-read 1/2 words blocks # with spare bits of zero
    "$mahyrei" -q uplink-write commands pulses
    {
        printf 'write\t%s\t%s\tframes\tmade.slots\n' "$header" "$marker"
        printf 'verify\t%s\t%s\tslots\n' "$header" "$marker"
        printf 'read\t--capture\t%s\t%s\tcapture\tmade.frames\n' "$header" "$marker"
        printf 'verify\t--capture\t%s\t%s\tcapture\n' "$header" "$marker"
        printf 'pass-write\t1/2\tblocks\tmade.words\npass-read\t1/2\twords\tmade.blocks\n'
        printf 'uplink-write\tcommands\tmade.pulses\nuplink-read\tpulses\tmade.commands\n'
    } >list
    {
        printf '{"run": "read", "header": "%s", "marker": "%s", "capture": "capture", "frames": "json.frames"}\n' "$header" "$marker"
        printf '{"run": "verify", "header": "%s", "marker": "%s", "slots": "made.slots"}\n' "$header" "$marker"
        printf '{"run": "pass-read", "rate": "1/2", "words": "words", "blocks": "json.blocks"}\n'
        printf '{"run": "uplink-read", "slots": "pulses", "frames": "json.commands"}\n'
    } >json
    batched 0 8 0 0 0 0 list
    batched 0 4 0 0 0 0 json
    for run in frames slots words blocks pulses commands; do
        alike "the $run of a list" "$run" "made.$run"
    done
    for run in frames blocks commands; do
        alike "the $run of a list of JSON" "$run" "json.$run"
    done
    has 'a run in a capture' "\"slot\": \"13\"" "$(grep '"run": "read"' list.results)"
    has 'a pass' "\"rate\": \"1/2\", \"blocks\": \"blocks\", \"words\": \"made.words\", \"blocks_bytes\": 1882" "$(<list.results)"
    batched 0 0 8 0 0 0 list
    batched 0 0 4 0 0 0 json
    # What is another now is made again, and nothing else.
    head -c 1882 <(yes 'other blocks') >blocks
    batched 0 1 7 0 0 0 list
    damage lose 7000
    cp damaged slots
    batched 1 0 7 1 0 0 list
    rm made.commands
    sed -i 's/^pass-read.1.2/pass-read\t2\/3/' list
    run 1 batch list
    same 'a command frame again' 16 "$(stat -c %s made.commands)"
    has 'a pass of another rate' 'line 6 of the list: refused, number 13, place 0: ' "$err"
    # Lines that are wrong.
    local line
    for line in 'verify\t00\t00' 'verify\t00\t00\tslots\tout' 'write\t--capture\t00\t00\tframes\tout' \
        'pass-write\tblocks\tout' 'uplink-read\t1/2\tslots\tout' 'read\t--capture\t00\t00\tslots' \
        'scan\t00\t00\tslots' '{"run": "pass-write", "blocks": "blocks", "words": "out"}'; do
        printf '%b\n' "$line" >wrong
        run 2 batch wrong
        has "a line that is wrong: $line" 'line 1 of the list: ' "$err"
        rm -f wrong.results
    done
    printf 'pass-write\t1/2\tblocks\tout\npass-read\t1/2\tout\tback\n' >wrong
    run 2 batch wrong
    has 'a file that is written and read' 'it names a file that another run writes' "$err"
}
