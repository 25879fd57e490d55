# What is asked for before data is erased: write --verify, --expect-sha256, --json, and words at a
# terminal.
# shellcheck shell=bash

digest() {
    sha256sum "$1" | cut -d ' ' -f 1
}

test_write_verify() {
    begin
    run 0 write --verify "$header" "$marker" frames out
    alike 'slots that were read back' slots out
    logged "$said/err" "write $sound"
    ln -s out link
    run 0 -qf write --verify "$header" "$marker" frames link
    alike 'slots that were read back through a link' slots out
    local name
    for name in - /dev/stdout /dev/null /dev/fd/1; do
        run 2 write --verify "$header" "$marker" frames "$name"
        has "reading $name back" "$name: only a file can be read back from the disk" "$err"
        same "what went to $name" '' "$(out)"
    done
    mkfifo pipe
    unharmed 2 'pipe: only a file can be read back' write --verify "$header" "$marker" frames pipe
    unharmed 2 'verify: this command has no such option' read --verify "$header" "$marker" slots out
}

# A disk that gives other bytes back, and one that gives none.
once_write_verify_faults() {
    begin
    local read
    prefix=(env "LD_PRELOAD=$faults" GARBLE=2) # the first are the frames
    run 2 write --verify "$header" "$marker" frames out
    has 'a wrong bit read back' 'out: what is read back is not what was written' "$err"
    logged "$said/err" "write ${sound%status=0}status=2"
    run 0 write -f "$header" "$marker" frames out # which nobody reads back
    prefix=(env "LD_PRELOAD=$faults" FAULT=read:3:5)
    run 2 write -f --verify "$header" "$marker" frames out
    has 'an output that cannot be read back' 'out: Input/output error' "$err"
    prefix=()
}

test_expected_digest() {
    begin
    local other frames_digest slots_digest
    frames_digest=$(digest frames) slots_digest=$(digest slots) other=$(digest header)
    for expected in "$frames_digest" "$slots_digest" "${frames_digest^^}"; do
        run 0 -q read -f --expect-sha256 "$expected" "$header" "$marker" slots out
        alike 'frames that were expected' frames out
        run 0 -q verify --expect-sha256="$expected" "$header" "$marker" slots
    done
    rm out
    unharmed 1 "refused: the run is sound, but not the one that was expected. SHA-256 of its frames \
is $frames_digest, of its slots $slots_digest" read --expect-sha256 "$other" "$header" "$marker" slots out
    has 'the log of it' 'answer=0 place=0 status=1' "$err"
    unharmed 1 'not the one that was expected' verify --expect-sha256 "$other" "$header" "$marker" slots
    run 1 -q read --json --expect-sha256 "$other" "$header" "$marker" slots out
    has 'the same as JSON' \
        '"number":0,"place":0,"sentence":"The run is sound, but not the one that was expected; ' "$(out)"
    capture 13 5 1
    run 0 -q verify --capture --expect-sha256 "$frames_digest" "$header" "$marker" capture
    run 0 -q verify --capture --expect-sha256 "$slots_digest" "$header" "$marker" capture
    unharmed 1 'not the one that was expected' \
        verify --capture --expect-sha256 "$(digest capture)" "$header" "$marker" capture
    damage lose 7000
    refused 10 7000 read --expect-sha256 "$(digest damaged)" "$header" "$marker" damaged out
    for other in '' 00 "${frames_digest}0" "${frames_digest%?}x" "$frames_digest frames"; do
        unharmed 2 'a SHA-256 digest has 64 hexadecimal digits' \
            read --expect-sha256 "$other" "$header" "$marker" slots out
    done
}

test_run_json() {
    begin
    local parts
    parts="\"frames_bytes\":1500,\"frames_sha256\":\"$(digest frames)\",\"slots\":\"slots\",\"slots_bytes\":28388,\"slots_sha256\":\"$(digest slots)\""
    run 0 -q write -f --json "$header" "$marker" frames slots
    has 'a run that was written' "{\"run\":\"write\",\"status\":0,\"header_hex\":\"$header\",\"marker_hex\":\"$marker\",\"frames\":\"frames\",$parts,\"number\":0,\"place\":0," "$(out)"
    run 0 -q read --json "$header" "$marker" slots out
    has 'a run that was read' "\"run\":\"read\",\"status\":0,\"header_hex\":\"$header\",\"marker_hex\":\"$marker\",\"frames\":\"out\",$parts" "$(out)"
    run 0 -q verify --json "$header" "$marker" slots
    has 'a run that was verified' "\"frames\":null,$parts" "$(out)"
    has 'what all is well means there' '"number":0,"place":0,"sentence":"All is well: the run is sound. Nothing was written."}' "$(out)"
    same 'lines of it' 1 "$(wc -l <"$said/out")"
    damage lose 7000
    run 1 -q verify --json "$header" "$marker" damaged
    has 'a run that was refused' "\"frames_bytes\":null,\"frames_sha256\":null," "$(out)"
    has 'why' "\"number\":10,\"place\":7000,\"sentence\":\"A symbol cannot be determined" "$(out)"
    run 1 -q verify --json "$header" "$marker" frames
    has 'a sentence for this call' \
        '"number":8,"place":0,"sentence":"The marker or the slots are longer or shorter than the header says."}' "$(out)"
    run 2 -q verify --json "$header" "$marker" none
    has 'one that failed' '"status":2,' "$(out)"
    has 'without an answer' '"number":null,"place":null}' "$(out)"
    capture 13 5 1
    run 0 -q verify --json --capture "$header" "$marker" capture
    has 'a run in a capture' "\"capture\":\"capture\",\"capture_bytes\":28395,\"capture_sha256\":\"$(digest capture)\",\"slot\":13,\"number\":0" "$(out)"
    local name
    for name in - /dev/stdout /dev/fd/1; do
        run 2 read --json "$header" "$marker" slots "$name"
        has "the result on $name" '--json: standard output has the result already' "$err"
        has "what went to $name" '{"run":"read","status":2,' "$(out)"
        same "lines that went to $name" 1 "$(wc -l <"$said/out")"
    done
    "$mahyrei" -q verify --json "$header" "$marker" slots >/dev/full 2>"$said/err"
    same 'status where it cannot be printed' 2 $?
    if command -v python3 >"$said/which"; then
        same 'all of it is JSON' '0 1500' "$("$mahyrei" -q verify --json "$header" "$marker" slots |
            python3 -c 'import json, sys; o = json.load(sys.stdin); print(o["status"], o["frames_bytes"])')"
    fi
}

# shown WORD...: what a terminal shows of the command, without carriage returns
shown() {
    script -qec "$mahyrei $*" /dev/null </dev/null | tr -d '\r'
}

# A line in words, and no line of the log, unless there is a log.
once_words_at_a_terminal() {
    begin
    if ! command -v script >"$said/out"; then
        echo 'command: no script(1) here; no words are looked at on a terminal'
        return
    fi
    same 'a run that was written' \
        'mahyrei: 3 frames, 1,500 bytes, as 28,388 bytes of slots: out on disk' \
        "$(shown write "$header" "$marker" frames out)"
    same 'one that was read back' \
        'mahyrei: 3 frames, 1,500 bytes, as 28,388 bytes of slots, read back and the same: out on disk' \
        "$(shown write -f --verify "$header" "$marker" frames out)"
    same 'a run that was read' 'mahyrei: 3 frames, 1,500 bytes, sound: back on disk' \
        "$(shown read "$header" "$marker" slots back)"
    same 'a run that was verified' 'mahyrei: 3 frames, 1,500 bytes, sound' \
        "$(shown verify "$header" "$marker" slots)"
    same 'a run that goes nowhere' 'mahyrei: 3 frames, 1,500 bytes, sound: /dev/null' \
        "$(shown read "$header" "$marker" slots /dev/null)"
    same 'a quiet run' '' "$(shown -q verify "$header" "$marker" slots)"
    same 'words beside a log' 'mahyrei: 3 frames, 1,500 bytes, sound' \
        "$(shown --log log verify "$header" "$marker" slots)"
    logged log "verify $sound"
    damage lose 7000
    same 'lines of a refusal' 2 "$(shown verify "$header" "$marker" damaged | wc -l)"
    same 'no line of the log among them' 0 \
        "$(shown verify "$header" "$marker" damaged | grep -Ec 'status=[012]$')"
    same 'a log that is full' 'mahyrei: /dev/full: No space left on device' \
        "$(shown --log /dev/full verify "$header" "$marker" slots)"
}
