# Runs whose symbols are sent several times.
# shellcheck shell=bash

# factor K: the header with this factor
factor() {
    header 1 4 5 189 500 5 3 "$1"
}

test_copies() {
    begin
    local copies h
    for copies in 1 2 3 4 8 16 32; do
        local size=$(((11355 * copies * 20 + 7) / 8))
        h=$(factor "$copies")
        run 0 write -f "$h" "$marker" frames out
        logged "$said/err" "write header=$h marker=5 frames=1500 slots=$size answer=0 place=0 status=0"
        same "slot bytes of $copies copies" "$size" "$(stat -c %s out)"
        run 0 read -f "$h" "$marker" out back
        alike "frames of $copies copies" frames back
        run 0 verify "$h" "$marker" out
    done
    run 0 write -f "$(factor 1)" "$marker" frames out
    alike 'one copy' slots out
    h=$(factor 3)
    run 0 write "$h" "$marker" frames tripled
    refused 8 0 read "$header" "$marker" tripled out
    refused 8 0 read "$h" "$marker" slots out
    says 'slots: the slots have 28388 bytes, and the header implies 85163' \
        read "$h" "$marker" slots out
    for copies in 0 5 33 63; do
        h=$(factor "$copies")
        refused 20 0 write "$h" "$marker" frames out
        refused 20 0 read "$h" "$marker" slots out
        refused 20 0 find "$h" "$marker" slots
        refused 20 0 cut "$h" slots 0 out
        refused 20 0 read --capture "$h" "$marker" slots out
        says "$h: copies is $copies" verify "$h" "$marker" slots
        says "$h: copies is $copies" cut "$h" slots 0 out
        unharmed 1 "refused, number 20, place 0: $(sentence 20)" inspect "$h" "$marker" slots
        unharmed 1 "refused, number 20, place 0: $(sentence 20)" show "$h" slots 0 1
    done
    h=$(factor 5)
    refused 7 0 write "$h" 0500100309 frames out
    refused 7 0 find "$h" 0500100309 slots
    refused 20 0 write "$h" "$marker" empty out
    refused 20 0 find "$h" "$marker" empty
    refused 20 0 cut "$h" empty 0 out
}

# A copy lost is made good, and two of three are not.
test_copies_pooled() {
    begin
    local h
    h=$(factor 3)
    run 0 write "$h" "$marker" frames out
    # Symbol 7000 is 60 slots, in bytes 52500 to 52507; its first copy ends in byte 52502.
    cp out damaged
    printf '\0\0' | dd of=damaged bs=1 seek=52500 conv=notrunc status=none
    run 0 read "$h" "$marker" damaged back
    alike 'frames of a run with a lost copy' frames back
    head -c 8 /dev/zero | dd of=damaged bs=1 seek=52500 conv=notrunc status=none
    rm -f back
    run 1 read "$h" "$marker" damaged back
    has 'a lost symbol' "refused, number 10, place 7000: $(sentence 10)" "$err"
    has 'where it is' 'damaged: symbol 7000 is slots 420000 to 420059, in bytes 52500 to 52507' "$err"
    same 'no frames then' no "$([ -e back ] || echo no)"
}

# A run of several copies is cut out where its first slot is known; the search is for single symbols.
test_copies_captured() {
    begin
    local h
    h=$(factor 2)
    run 0 write "$h" "$marker" frames sent
    "$tool" "$h" "capture" 13 5 1 <sent >capture
    run 0 cut "$h" capture 13 out
    alike 'a run of two copies, cut out' sent out
    logged "$said/err" "cut header=$h marker=- frames=- slots=56775 capture=$(stat -c %s capture) \
slot=13 answer=0 place=0 status=0"
    says "capture: the run has 454200 slots, and from slot 100000 on the capture has $((
        8 * $(stat -c %s capture) - 100000))" cut -f "$h" capture 100000 out
    says "$h: symbols are sent 2 times, and the search assumes that they are sent once" \
        find "$h" "$marker" capture
    run 0 -q find "$h" "$marker" slots # whatever the factor is
    same 'a marker whose symbols are sent once' 0 "$(out)"
    for words in 'read --capture' 'verify --capture'; do
        local to=out
        [ "$words" = 'read --capture' ] || to=
        # shellcheck disable=SC2086  # several words are meant
        unharmed 2 "$h: a run that is found in a capture has symbols that are sent once" \
            $words "$h" "$marker" capture $to
    done
    logged "$said/err" "verify header=$h marker=5 frames=- slots=- capture=$(stat -c %s capture) \
slot=- answer=- place=- status=2"
    bytes "$h" >twice
    run 2 read --capture - "$marker" capture out <twice
    has 'a header from standard input' 'standard input: a run that is found' "$err"
}

# What is wrong in the slots of a run, over the copies: what mahyrei_run_read says is what is counted.
test_copies_inspected() {
    begin
    local h
    h=$(factor 3)
    "$mahyrei" -q write "$h" "$marker" frames sent
    inspected() {
        run "$1" inspect -f "$h" "$marker" damaged --svg picture.svg
        same 'counts of the report' "$2" \
            "$(sed -n '/^How many/,/^$/ s/.* \([0-9]*\) of [0-9]*$/\1/p' "$said/out" | xargs)"
        same 'nothing else is said' '' "$err"
        has 'that the copies are pooled' 'Each symbol is sent 3 times, and its copies are pooled.' \
            "$(out)"
        has 'the factor in the picture' ', each sent 3 times' "$(<picture.svg)"
    }
    # changed SLOT...: these turned over
    changed() {
        local slot
        cp sent damaged
        for slot; do
            "$tool" "$h" flip "$slot" <damaged >next
            mv next damaged
        done
    }
    cp sent damaged
    inspected 0 '0 0 0 0 0 0 0 2 0 0 0 0 3 0 0 0'
    changed 420018 420038 # a guard slot of symbol 7000, in two of three copies: it is still told
    inspected 0 '0 0 0 0 0 0 0 2 0 0 0 0 3 0 0 0'
    changed 420018 420038 420058
    inspected 1 '0 1 0 0 0 0 0 1 0 0 0 1 2 0 1 0'
    has 'what it is called' 'g symbols with most pulses in a guard slot ' "$(out)"
    has 'where it is' 'symbol 7000, slot 420018, byte 52502: row 1, word 1 symbol 3210' "$(out)"
    "$tool" "$h" lose 7000 <sent >damaged
    inspected 1 '0 0 1 0 0 0 0 1 0 0 0 1 2 0 1 0'
    has 'where it is' 'symbol 7000, slot 420000, byte 52500: row 1, word 1 symbol 3210' "$(out)"
    "$tool" "$h" lose 7000 <sent >next
    "$tool" "$h" flip 420022 <next | "$tool" "$h" flip 420045 >damaged
    inspected 1 '0 0 0 1 0 0 0 1 0 0 0 1 2 0 1 0'
    has 'what it is called' 's symbols with most pulses in several slots ' "$(out)"
    has 'where it is' 'symbol 7000, slot 420045, byte 52505: row 1, word 1 symbol 3210' "$(out)"
    "$tool" "$h" move 3787 <sent | "$tool" "$h" move 6 >damaged
    inspected 1 '0 0 0 0 1 1 0 2 0 0 0 0 3 0 0 0'
    "$tool" "$h" turn 1 7000 <sent >damaged
    inspected 1 '0 0 0 0 0 0 0 1 1 0 0 0 2 0 1 0'
    changed 681300 681303
    inspected 1 '0 0 0 0 0 0 2 2 0 0 0 0 3 0 0 0'
    head -c 75000 sent >damaged # 10000 symbols
    inspected 1 '1355 0 0 0 0 0 0 1 0 0 0 1 2 0 1 0'
}

test_copies_shown() {
    begin
    local h value
    h=$(factor 3)
    "$mahyrei" -q write "$h" "$marker" frames sent
    "$tool" "$h" flip 420018 <sent | "$tool" "$h" lose 7001 >next
    "$tool" "$h" flip 420063 <next | "$tool" "$h" flip 420084 >damaged
    run 0 show "$h" damaged 6999 4
    same 'lines of four symbols' 12 "$(wc -l <"$said/out")"
    same 'lines that begin with a symbol' '6999 7000 7001 7002' \
        "$(awk '/^ +[0-9]+  / { print $1 }' "$said/out" | xargs)"
    value=$(sed -n 4p "$said/out" | cut -c 32-34)
    has 'a symbol with a guard pulse is told' '7000  word 1   symbol 3210' "$(sed -n 4p "$said/out")"
    same 'the guard pulse of its first copy' '__!_' "$(sed -n 4p "$said/out" | cut -c 53-56)"
    same 'its second copy below' "$(sed -n 5p "$said/out" | cut -c 37-)" \
        "$(sed -n 6p "$said/out" | cut -c 37-)"
    same 'where that begins' "$(printf '%36s' '')" "$(sed -n 5p "$said/out" | cut -c 1-36)"
    same 'its pulse' "$((value + 37))" "$(($(sed -n 5p "$said/out" | grep -bo '|' | cut -d : -f 1) + 1))"
    has 'a symbol that cannot be told' '  2 slots with 1 pulse' "$(sed -n 7p "$said/out")"
    has 'its value' ' -  ...|............____' "$(sed -n 7p "$said/out")"
}

# More slots than any run of one copy has; its file is 270 MB.
once_copies_many() {
    begin
    local h room
    h=$(header 1 6 84 120 223 16 2 32)
    room=$(df -Pm . | awk 'NR == 2 { print $4 }')
    if [ "$room" -lt 600 ]; then
        echo 'command: no room for a run of 270 MB; it is not tried'
        return
    fi
    printf 'write\t%s\t%s\texample\tmany\n' "$h" "$example_marker" >list
    run 0 -q batch list
    same 'its slots' 270236160 "$(stat -c %s many)"
    run 0 -q verify "$h" "$example_marker" many
    run 0 batch list
    has 'it is not done again' '1 runs: 0 done, 1 done before, 0 refused' "$err"
    same 'results of it' 1 "$(wc -l <list.results)"
    run 0 -q show "$h" many 844487 1
    same 'the copies of its last symbol' 32 "$(wc -l <"$said/out")"
    cat many <(echo) >longer
    run 1 verify "$h" "$example_marker" longer
    has 'one byte more' 'longer: the slots have 270236161 bytes or more, and the header implies 270236160' \
        "$err"
}
