# Every number, with its place and sentence.
# shellcheck shell=bash

test_refusals() {
    begin
    local h m=$marker
    for command in write read; do
        local from=frames
        [ "$command" = write ] || from=slots
        for h in "${header:0:18}" "${header}00" "${header:0:19}1" "$(old_header "$header")" 00; do
            refused 1 0 "$command" "$h" "$m" "$from" out
        done
        refused 2 0 "$command" "$(header 3 4 5 189 500 5 3)" "$m" "$from" out
        refused 3 0 "$command" "$(header 1 9 5 189 500 5 3)" "$m" "$from" out
        refused 3 0 "$command" "$(header 1 0 5 189 500 5 3)" "$m" "$from" out
        refused 4 0 "$command" "$(header 1 4 0 189 500 5 3)" "$m" "$from" out
        refused 4 0 "$command" "$(header 1 4 5 257 500 5 3)" "$m" "$from" out
        refused 5 0 "$command" "$(header 1 4 2 189 500 5 3)" "$m" "$from" out
        refused 6 0 "$command" "$(header 1 4 5 189 0 5 3)" "$m" "$from" out
        refused 6 0 "$command" "$(header 1 4 5 189 500 5 65)" "$m" "$from" out
        refused 7 0 "$command" "$(header 1 4 5 189 500 33 3)" "$m" "$from" out
        refused 7 0 "$command" "$(header 1 4 5 189 500 0 3)" "$m" "$from" out
        refused 7 0 "$command" "$header" 0500100309 "$from" out
        refused 20 0 "$command" "$(header 1 4 5 189 500 5 3 5)" "$m" "$from" out
        refused 8 0 "$command" "$header" "${marker}00" "$from" out
        head -c -1 "$from" >short
        refused 8 0 "$command" "$header" "$m" short out
        cat "$from" <(echo) >long
        refused 8 0 "$command" "$header" "$m" long out
    done
    damage flip 227103
    refused 9 0 read "$header" "$m" damaged out
    damage lose 7000
    refused 10 7000 read "$header" "$m" damaged out
    damage flip 140018
    refused 10 7000 read "$header" "$m" damaged out
    damage move 3787
    refused 11 3787 read "$header" "$m" damaged out
    refused 11 4 read "$header" 05000C0308 slots out
    damage move 6
    refused 12 6 read "$header" "$m" damaged out
    damage turn 1 7000
    refused 13 1 read "$header" "$m" damaged out
    damage code 1 15118 15119
    refused 14 1 read "$header" "$m" damaged out
    damage code 0 0 1 3 4 5
    refused 15 0 read "$header" "$m" damaged out
    head -c 1250 frames >fewer
    run 0 write "$(header 1 4 5 189 250 5 5)" "$m" fewer other
    refused 16 1 read "$header" "$m" other out
    refused 18 0 read "$(header 1 4 5 189 500 5 2)" "$m" slots out
}

# Which field, which file and its size, which slots and bytes.
test_refusal_says_where() {
    begin
    local m=$marker
    says '00: the header has 1 byte, and needs 10' write 00 "$m" frames out
    says "${header}00: the header has 11 bytes or more, and needs 10" write "${header}00" "$m" frames out
    says 'standard input: the header has 0 bytes, and needs 10' write - "$m" frames out </dev/null
    says "${header:0:19}1: the last 26 bits of the header are 0000001" read "${header:0:19}1" "$m" slots out
    says "50157A3E828307800000: the last 26 bits of the header are 3800000" \
        read 50157A3E828307800000 "$m" slots out
    says "D0157A3E828304000000: rate is 3" read "$(header 3 4 5 189 500 5 3)" "$m" slots out
    says "$(header 1 4 5 257 500 5 3): B is 257" read "$(header 1 4 5 257 500 5 3)" "$m" slots out
    says "$(header 1 4 2 189 500 5 3): N is 2, B is 189, and S is 3780" \
        read "$(header 1 4 2 189 500 5 3)" "$m" slots out
    says '0500100309: symbol 2 of the marker is 16, and M is 16' read "$header" 0500100309 slots out
    local wrong
    wrong=$(header 1 4 5 189 500 5 3 5)
    says '0500100309: symbol 2 of the marker is 16, and M is 16' read "$wrong" 0500100309 slots out
    says "$wrong: copies is 5" read "$wrong" "$m" slots out
    says "$wrong: copies is 5" verify "$wrong" 05 slots
    says '05: the marker'"'"'s symbols have 1 byte, and the header implies 5' \
        read "$header" 05 slots out
    head -c 1499 frames >short
    says 'short: the frames have 1499 bytes, and the header implies 1500' \
        write "$header" "$m" short out
    says 'empty: the slots have 0 bytes, and the header implies 28388' read "$header" "$m" empty out
    says '/dev/zero: the frames have 131073 bytes or more, and the header implies 1500' \
        write "$header" "$m" /dev/zero out
    says 'standard input: the slots have 0 bytes, and the header implies 28388' \
        verify "$header" "$m" - </dev/null
    damage flip 227103
    says 'damaged: the slots end with slot 227099; the last byte, 28387, is 01' \
        read "$header" "$m" damaged out
    damage lose 7000
    says 'damaged: symbol 7000 is slots 140000 to 140019, in bytes 17500 to 17502' \
        read "$header" "$m" damaged out
    damage move 3787
    says 'damaged: symbol 3787 is slots 75740 to 75759, in bytes 9467 to 9469' \
        verify "$header" "$m" damaged
    # Word 1 is symbols 3780 to 7559 of all; by steps 9 and 10 the first at place 3780, after two
    # markers, the last at 7559 + 4 * 945, after three.
    damage turn 1 7000
    says 'damaged: word 1 has its symbols from 3790 to 11354: slots 75800 to 227099, bytes 9475 to 28387' \
        read "$header" "$m" damaged out
    head -c 1250 frames >fewer
    run 0 write "$(header 1 4 5 189 250 5 5)" "$m" fewer other
    says "other: the frame's marker begins at bit 4032 of the block of word 0" \
        read "$header" "$m" other out
    says 'slots: the fill begins at bit 538 of the block of word 1' \
        read "$(header 1 4 5 189 500 5 2)" "$m" slots out
}

test_verify() {
    begin
    list
    local before=$names
    run 0 verify "$header" "$marker" slots
    same 'what a verified run prints' '' "$(out)"
    damage lose 7000
    run 1 verify "$header" "$marker" damaged
    has 'a run that is not verified' "refused, number 10, place 7000: $(sentence 10)" "$err"
    run 2 verify "$header" "$marker" none
    run 2 verify "$header" "$marker" slots out
    run 2 verify -n "$header" "$marker" slots
    has 'an option of another command' 'no-clobber: this command has no such option' "$err"
    list
    same 'files after verify' "$before" "$names"
}
