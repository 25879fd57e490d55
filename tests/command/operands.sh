# What an operand can be.
# shellcheck shell=bash

test_round_trip() {
    begin
    run 0 write header marker frames out
    same 'standard output' '' "$(out)"
    logged "$said/err" "write $sound"
    same 'nothing but the log is said' 1 "$(wc -l <"$said/err")"
    run 0 read header marker out back
    logged "$said/err" "read $sound"
    alike 'frames that come back' frames back
    run 0 write -f "$example" "$example_marker" example out
    same 'slot bytes of the example' 8444880 "$(stat -c %s out)"
    run 0 read -f "$example" "$example_marker" out back
    alike 'frames of the example' example back
}

test_operands() {
    begin
    cp frames ./-frames
    cp header beef
    for text in "$header" "${header,,}" "hex:$header" 'hex:50 15 7a3E 8283 04 000000' \
        ' 50157A3E 828304000000 ' 0x50157A3E828304000000 0X50157a3e828304000000 \
        50:15:7A:3E:82:83:04:00:00:00 'hex:0x50 0x15 0x7A 0x3E 0x82 0x83 0x04 0x00 0x00 0x00' \
        '50157A3E: 828304000000' hex:0x50157A3E828304000000 \
        header ./header ./beef; do
        rm -f out
        run 0 write "$text" "$marker" frames out
        alike "slots with the header as $text" slots out
    done
    for text in "$marker" 05000c0309 "hex:$marker" '05 00 0C 03 09' marker; do
        run 0 read -f "$header" "$text" slots out
        alike "frames with the marker as $text" frames out
    done
    run 0 -- sheet "$header"
    run 2 sheet -- --help
    has 'an operand named like an option' 'mahyrei: --help: No such file' "$err"
    run 0 write -f "$header" "$marker" -- -frames out
    alike 'frames from a file named like an option' slots out
    rm out
    rm beef
    refused 1 0 write beef "$marker" frames out
    unharmed 2 'two digits for each byte' write "${header}0" "$marker" frames out
    unharmed 2 'two digits for each byte' write "$header" hex:05000C030 frames out
    unharmed 2 'two digits for each byte' write "$header" 'hex:0 5' frames out
    unharmed 2 'two digits for each byte' write hex:50157A3E82830400000G "$marker" frames out
    unharmed 2 'two digits for each byte' write hex:header "$marker" frames out
    unharmed 2 'two digits for each byte' write 5:0157A3E828304000000 "$marker" frames out
    unharmed 2 'two digits for each byte' write 0x5 "$marker" frames out
    unharmed 2 'xx: No such file' write 0xx "$marker" frames out
    unharmed 2 '0x: No such file' write 0x "$marker" frames out
    refused 1 0 write "$example_marker$example_marker" "$marker" frames out
    refused 1 0 write hex: "$marker" frames out
    refused 8 0 write "$header" hex: frames out
}

test_dashes() {
    begin
    run 0 write "$header" "$marker" - out <frames
    alike 'slots of standard input' slots out
    run 0 write "$header" "$marker" frames -
    alike 'slots on standard output' slots "$said/out"
    run 0 write -f - "$marker" frames out <header
    alike 'slots with the header from standard input' slots out
    run 0 read "$header" - slots - <marker
    alike 'frames on standard output' frames "$said/out"
    rm out
    "$mahyrei" write "$header" "$marker" - - <frames 2>/dev/null |
        "$mahyrei" read "$header" "$marker" - - 2>/dev/null | cmp -s - frames
    same 'status of each program in a row' '0 0 0' "${PIPESTATUS[*]}"
    run 1 read "$header" "$marker" - - </dev/null
    same 'standard output of a refused run' '' "$(out)"
    unharmed 2 'standard input' write "$header" "$marker" - out <directory
    unharmed 2 'standard input' write "$header" "$marker" - out <&-
    same 'a file named -' '' "$(ls ./- 2>/dev/null)"
}

test_names() {
    begin
    local long
    long=$(printf '%0255d' 0)
    for name in 'a name with blanks' $'two\nlines' "$long" directory/out "$work/directory/out" \
        directory/../over; do
        run 0 write -f "$header" "$marker" frames "$name"
        alike "slots in $name" slots "$name"
        run 0 read -f "$header" "$marker" "$name" out
        alike "frames of $name" frames out
    done
    cp frames both
    run 0 write -f "$header" "$marker" both both
    alike 'slots over their own frames' slots both
    run 0 read -f "$header" "$marker" both both
    alike 'frames over their own slots' frames both
    run 0 write -f "$header" marker frames marker
    alike 'slots over the marker' slots marker
}

# Text that is also the name of a file: nobody can say which was meant.
test_text_or_file() {
    begin
    local text name
    cp frames "$header"
    ln -s nowhere "$marker"
    for name in "$header" "0x$header" 50:15:7A:3E:82:83:04:00:00:00; do
        [ -e "$name" ] || cp header "$name"
        unharmed 2 "$name: this is hexadecimal text and also a file here; hex: before it" \
            write "$name" "hex:$marker" frames out
        unharmed 2 'hexadecimal text and also a file here' sheet "$name"
    done
    unharmed 2 'hexadecimal text and also a file here' write "hex:$header" "$marker" frames out
    run 0 write "hex:$header" "hex:$marker" frames out
    alike 'slots with the text' slots out
    rm out "$marker"
    cp marker "$marker"
    cp header "$header"
    run 0 write "./$header" "./$marker" frames out
    alike 'slots with the files' slots out
}
