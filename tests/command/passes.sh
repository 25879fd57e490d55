# Passes: blocks to words and back.
# shellcheck shell=bash

sizes=([0]=626 [1]=941 [2]=1256)
rate_names=([0]=1/3 [1]=1/2 [2]=2/3)

# blocks RATE COUNT: so many blocks of a rate by its number, no two alike, in `blocks`; in `zeroed`
# the same with spare bits of 0, as they come back
blocks() {
    local i size=${sizes[$1]}
    for ((i = 0; i < $2; i++)); do
        printf "%-$((size - 1))s" "Block $i: keep the recording."
        printf '%b' "\\x$(printf %02x $((i % 256)))"
    done >blocks
    for ((i = 0; i < $2; i++)); do
        printf "%-$((size - 1))s" "Block $i: keep the recording."
        printf '%b' "\\x$(printf %02x $((i % 256 / 4 * 4)))"
    done >zeroed
}

# A pass of three blocks at rate 1/2, and what the log has of it.
begin_pass() {
    begin
    blocks 1 3
    "$mahyrei" -q pass-write 1/2 blocks words
}
sound_pass='rate=1/2 blocks=2823 words=5670 answer=0 place=0 status=0'

# spoil BYTE...: `damaged` is the words with each of these bytes changed
spoil() {
    local byte was
    cp words damaged
    for byte; do
        was=$(od -An -tu1 -j "$byte" -N 1 words)
        printf '%b' "\\x$(printf %02x $((was ^ 1)))" |
            dd of=damaged bs=1 seek="$byte" conv=notrunc status=none
    done
}

test_pass_round_trip() {
    begin
    local rate count line
    for rate in 0 1 2; do
        for count in 1 2 211; do
            blocks "$rate" "$count"
            line="rate=${rate_names[$rate]} blocks=$((count * sizes[rate])) words=$((count * 1890))"
            line+=' answer=0 place=0 status=0'
            for name in "$rate" "${rate_names[$rate]}"; do
                rm -f out back
                run 0 pass-write "$name" blocks out
                same 'standard output' '' "$(out)"
                logged "$said/err" "pass-write $line"
                same "bytes of $count words" $((count * 1890)) "$(stat -c %s out)"
                run 0 pass-read "$name" out back
                alike "$count blocks of rate $name" zeroed back
                logged "$said/err" "pass-read $line"
            done
        done
    done
    # One by one the words are the same.
    blocks 1 5
    run 0 pass-write -f 1/2 blocks out
    for ((count = 0; count < 5; count++)); do
        tail -c +$((count * 941 + 1)) blocks | head -c 941 >one
        run 0 pass-write -f 1/2 one word
        alike "word $count" word <(tail -c +$((count * 1890 + 1)) out | head -c 1890)
    done
}

test_pass_refusals() {
    begin_pass
    refused 2 0 pass-write 3 blocks out
    refused 2 0 pass-read 18446744073709551615 words out
    refused 8 0 pass-write 1/2 empty out
    refused 8 0 pass-read 1/2 empty out
    refused 8 0 pass-write 1/3 blocks out # 2823 bytes are no whole blocks of 626
    refused 8 0 pass-read 1/2 /dev/zero out
    local from
    for from in blocks words; do
        local way=pass-write
        [ "$from" = blocks ] || way=pass-read
        head -c -1 "$from" >short
        refused 8 0 "$way" 1/2 short out
        cat "$from" <(printf x) >long
        refused 8 0 "$way" 1/2 long out
    done
    blocks 0 212
    refused 8 0 pass-write 0 blocks out
    head -c $((212 * 1890)) /dev/zero >many
    refused 8 0 pass-read 0 many out
    refused 13 0 pass-read 1/3 words out # words of another rate
    spoil 0
    refused 13 0 pass-read 1/2 damaged out
    spoil 1889
    refused 13 0 pass-read 1/2 damaged out
    spoil 1890
    refused 13 1 pass-read 1/2 damaged out
    spoil 5669
    refused 13 2 pass-read 1/2 damaged out
    spoil 5000 2000
    refused 13 1 pass-read 1/2 damaged out
}

test_pass_says_where() {
    begin_pass
    says 'the rate is 3' pass-write 3 blocks out
    says 'empty: there are 0 bytes; a pass has 941 for each block, and 1 to 211 of them' \
        pass-write 1/2 empty out
    says 'blocks: there are 2823 bytes; a pass has 1890 for each word, and 1 to 211 of them' \
        pass-read 2 blocks out
    says 'standard input: there are 265017 bytes or more; a pass has 626 for each block, and '\
'1 to 211 of them' pass-write 1/3 - out </dev/zero
    spoil 5000
    says 'damaged: word 2 is bytes 3780 to 5669' pass-read 1/2 damaged out
}

test_pass_usage() {
    begin_pass
    unharmed 2 'number of operands' pass-write 1/2 blocks
    unharmed 2 'operand too many' pass-read 1/2 words out out
    unharmed 2 'long: this command has no such option' -l pass-read 1/2 words out
    unharmed 2 'no such command' pass 1/2 words out
    for rate in x '' 1/4 1/ -1 0.5 1/33 0x1 18446744073709551616; do
        unharmed 2 "mahyrei: $rate: the rate is 1/3, 1/2 or 2/3, or its number" \
            pass-write -- "$rate" blocks out
    done
    unharmed 2 'none: No such file' pass-write 1/2 none out
    unharmed 2 'directory: Is a directory' pass-read 1/2 directory out
    run 2 pass-write 1/2 blocks directory
    run 0 pass-write 1/2 - - <blocks
    alike 'words through standard files' words "$said/out"
    "$mahyrei" -q pass-write 1/2 - - <blocks | "$mahyrei" -q pass-read 1 - - | cmp -s - zeroed
    same 'status of each program in a row' '0 0 0' "${PIPESTATUS[*]}"
    cp blocks both
    run 0 pass-write -f 1/2 both both
    alike 'words over their own blocks' words both
    run 0 pass-read -f 1/2 both both
    alike 'blocks over their own words' zeroed both
}

test_pass_log() {
    begin_pass
    local digest
    digest() {
        sha256sum "$1" | cut -d ' ' -f 1
    }
    run 0 --log log pass-write 1 ./blocks out
    same 'standard error beside a log' '' "$err"
    has 'a pass in the log' "rate=1/2 blocks=2823 blocks-sha256=$(digest blocks) blocks-file=./blocks \
words=5670 words-sha256=$(digest words) words-file=out answer=0 place=0 status=0" "$(tail -n 1 log)"
    run 0 --log log pass-read 1/2 words - </dev/null
    has 'the way back in the log' "blocks-sha256=$(digest zeroed) blocks-file=- words=5670 \
words-sha256=$(digest words) words-file=words " "$(tail -n 1 log)"
    logged log "pass-read $sound_pass"
    spoil 5000
    run 1 --log log pass-read -f 1/2 damaged out
    has 'a refusal in the log' "blocks=- blocks-sha256=- blocks-file=out words=5670 \
words-sha256=$(digest damaged) words-file=damaged answer=13 place=2 status=1" "$(tail -n 1 log)"
    run 1 --log log pass-write -f 9 /dev/zero out
    has 'what is not read to its end' 'rate=9 blocks=265017 blocks-sha256=- blocks-file=/dev/zero' \
        "$(tail -n 1 log)"
    run 2 --log log pass-write x blocks out
    logged log 'pass-write rate=- blocks=- words=- answer=- place=- status=2'
    run 0 --quiet pass-write -f 1/2 blocks out
    same 'what a quiet pass says' '' "$err"
    run 1 -q pass-read -f 1/2 damaged out
    has 'a quiet refusal' 'mahyrei: refused, number 13, place 2: ' "$err"
    same 'no line of the log there' 0 "$(grep -Ec "$log_line" "$said/err")"
    cp blocks kept
    run 2 --log blocks pass-write 1/2 blocks out
    has 'the blocks as log' 'blocks: this is the log' "$err"
    alike 'the blocks after that' kept blocks
    run 2 --log out pass-write 1/2 blocks ./out
    has 'the output as log' './out: this is the log' "$err"
    mkdir 1
    run 0 --log 1/2 pass-write -f 1/2 blocks out # the rate is no file
    logged 1/2 "pass-write $sound_pass"
}

test_pass_outputs() {
    begin_pass
    echo old >out
    run 2 --no-clobber pass-write 1/2 blocks out
    has 'a file that is not to be replaced' 'out: this file already exists' "$err"
    same 'that file' old "$(<out)"
    chmod 604 out
    run 0 pass-write -f 1/2 blocks out
    same 'mode of a file that is replaced' 604 "$(stat -c %a out)"
    rm out
    run 0 -n pass-read 1/2 words out
    alike 'blocks in a new file' zeroed out
    ln -s out link
    run 0 pass-write -f 1/2 blocks link
    same 'a link stays a link' out "$(readlink link)"
    alike 'the file that a link leads to' words out
    run 2 pass-write 1/2 blocks /dev/full
    has 'a full device' '/dev/full: No space left on device' "$err"
    same 'what is left beside them' '' "$(find . -name '.mahyrei*')"
}

once_pass_faults() {
    begin_pass
    local fault
    for fault in read:1:5 write:1:28 write:1:5 fsync:1:5 close:1:5 rename:1:5; do
        prefix=(env "LD_PRELOAD=$faults" "FAULT=$fault")
        unharmed 2 'mahyrei: ' pass-write 1/2 blocks out
        unharmed 2 'mahyrei: ' pass-read 1/2 words out
    done
    prefix=(env "LD_PRELOAD=$faults" FAULT=thread:1:11)
    unharmed 2 'a stack of 4 MiB for the library: ' pass-read 1/2 words out
    prefix=(bash -c 'ulimit -f 1; exec "$@"' bash)
    unharmed 2 'out: File too large' pass-write 1/2 blocks out
    prefix=(bash -c 'ulimit -s 64; exec "$@"' bash)
    run 0 pass-read 1/2 words out
    alike 'blocks on a stack of 64 KiB' zeroed out
    prefix=()
}

# Nothing half written has the output's name, and no signal but SIGKILL leaves anything behind.
once_pass_signals() {
    begin_pass
    local signal temporary held status
    echo old >out
    for signal in INT TERM HUP SEGV KILL; do
        : >hold
        rm -f .mahyrei.*
        # shellcheck disable=SC2016  # the inner shell expands it
        env --default-signal env "LD_PRELOAD=$faults" FAULT=hold bash -c 'ulimit -c 0; exec "$@"' \
            bash "$mahyrei" --log /dev/null pass-read -f 1/2 words out 2>/dev/null &
        held=$! temporary=''
        while [ ! -s "$temporary" ] && kill -0 "$held" 2>/dev/null; do
            for temporary in .mahyrei.*; do :; done
        done
        kill -s "$signal" "$held"
        wait "$held" 2>/dev/null
        status=$?
        same "status after signal $signal" "$signal" "$(kill -l "$status")"
        same "output after signal $signal" old "$(<out)"
        [ "$signal" != KILL ] || rm .mahyrei.*
        same "what signal $signal leaves" '' "$(find . -name '.mahyrei*')"
    done
    rm hold
}

once_pass_terminal() {
    begin_pass
    if ! command -v script >"$said/out"; then
        echo 'command: no script(1) here; no pass goes to a terminal'
        return
    fi
    script -qec "$mahyrei -q pass-read 1/2 words -" /dev/null </dev/null >"$said/out"
    same 'status with a terminal' 2 $?
    has 'bytes for a terminal' 'this is a terminal' "$(out)"
    script -qec "$mahyrei -q pass-read -f 1/2 words -" /dev/null </dev/null | tr -d '\0' >"$said/out"
    has 'bytes for a terminal all the same' 'Block 0: keep the recording.' "$(out)"
}
