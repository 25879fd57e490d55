# inspect and show: what is said of the slots of a run, and the picture.
# shellcheck shell=bash

# report STATUS COUNTS: inspects `damaged`; the counts of x g n s m z, spare bits, words with 0, 13,
# 14, 15 and none, frames right, wrong and unknown, fill bits
report() {
    local wanted=$2
    run "$1" inspect "$header" "$marker" damaged
    same "counts of the report" "$wanted" \
        "$(sed -n '/^How many/,/^$/ s/.* \([0-9]*\) of [0-9]*$/\1/p' "$said/out" | xargs)"
    same 'nothing else is said' '' "$err"
}

# damages KIND NUMBER... [- KIND NUMBER...]...: several kinds of damage, one after the other
damages() {
    local words=()
    cp slots damaged
    for word in "$@" -; do
        if [ "$word" = - ]; then
            "$tool" "$header" "${words[@]}" <damaged >next
            mv next damaged
            words=()
        else
            words+=("$word")
        fi
    done
}

test_inspect_counts() {
    begin
    report 0 '0 0 0 0 0 0 0 2 0 0 0 0 3 0 0 0'
    has 'sound slots' 'damaged: mahyrei_run_read accepts it.' "$(out)"
    has 'what is plain C' 'counted in plain C' "$(out)"
    has 'that nothing is corrected' 'Nothing has been corrected.' "$(tr '\n' ' ' <"$said/out")"
    same 'sound slots have no list' '' "$(grep -E 'The first|Over the run' "$said/out")"
    damages lose 7000
    report 1 '0 0 1 0 0 0 0 1 0 0 0 1 2 0 1 0'
    has 'what mahyrei_run_read says' "mahyrei_run_read refuses it, number 10, place 7000: $(sentence 10)" "$(out)"
    has 'where it is' 'symbol 7000, slot 140000, byte 17500: row 1, word 1 symbol 3210' "$(out)"
    has 'a word that is not judged' 'word 1, its first symbol is symbol 3790' "$(out)"
    damages flip 140018
    report 1 '0 1 0 0 0 0 0 1 0 0 0 1 2 0 1 0'
    has 'where it is' 'symbol 7000, slot 140018, byte 17502: row 1, word 1 symbol 3210' "$(out)"
    damages lose 7000 - flip 140018 # a lone guard pulse is one as well
    report 1 '0 1 0 0 0 0 0 1 0 0 0 1 2 0 1 0'
    damages flip 60005
    report 1 '0 0 0 1 0 0 0 1 0 0 0 1 1 0 2 0'
    has 'where it is' 'symbol 3000, slot 60005, byte 7500: row 0, word 0 symbol 2995' "$(out)"
    damages move 3787
    report 1 '0 0 0 0 1 0 0 2 0 0 0 0 3 0 0 0'
    has 'where it is' 'symbol 3787, slot 75753, byte 9469: row 1, marker symbol 2' "$(out)"
    damages move 6
    report 1 '0 0 0 0 0 1 0 2 0 0 0 0 3 0 0 0'
    has 'where it is' "symbol 6, slot 121, byte 15: row 0, no word's symbol" "$(out)"
    damages flip 227103 - flip 227101
    report 1 '0 0 0 0 0 0 2 2 0 0 0 0 3 0 0 0'
    has 'spare bits' $'slot 227101\n    slot 227103' "$(out)"
    damages turn 1 7000
    report 1 '0 0 0 0 0 0 0 1 1 0 0 0 2 0 1 0'
    has 'a damaged word' 'word 1, first wrong coded bit ' "$(out)"
    damages code 1 15118 15119
    report 1 '0 0 0 0 0 0 0 1 0 1 0 0 2 0 1 0'
    damages code 0 0 1 3 4 5
    report 1 '0 0 0 0 0 0 0 1 0 0 1 0 1 0 2 0'
    damages lose 7000 - lose 7001 - lose 7002 - lose 7003 - lose 7004 - lose 7005 - lose 7006 - \
        move 0 - move 6 - turn 0 7000 - flip 227103
    report 1 '0 0 7 0 1 1 1 0 0 0 0 2 0 0 3 0'
    has 'those that are not listed' 'and 2 more' "$(out)"
    has 'the histogram' $'\n       6624         7  nnnnnnn' "$(out)"
    same 'lines of the histogram' 24 \
        "$(sed -n '/^Over the run/,$ p' "$said/out" | tail -n +2 | wc -l)"
    head -c 1250 frames >fewer
    "$mahyrei" -qf write "$(header 1 4 5 189 250 5 5)" "$marker" fewer damaged
    report 1 '0 0 0 0 0 0 0 2 0 0 0 0 1 2 0 0'
    has 'a wrong frame marker' 'frame 1, from word 0 bit 4032 on' "$(out)"
    run 1 inspect "$(header 1 4 5 189 500 5 2)" "$marker" slots
    has 'set fill bits' 'fill bits set after the frames' "$(out)"
    has 'set fill bits' 'bit of the joined frames' "$(out)"
}

# Slots of another length are looked at as far as they go.
test_inspect_lengths() {
    begin
    head -c 25000 slots >damaged # 10000 symbols
    report 1 '1355 0 0 0 0 0 0 1 0 0 0 1 2 0 1 0'
    has 'the length' 'The slots have 25000 bytes, and the header implies 28388.' "$(out)"
    has 'the sentence of 8' \
        'refuses it, number 8, place 0: The slots are longer or shorter than the header says.' "$(out)"
    has 'number 8' 'number 8, place 0' "$(out)"
    : >damaged
    report 1 '11355 0 0 0 0 0 0 0 0 0 0 2 0 0 3 0'
    cat slots slots >damaged
    report 1 '0 0 0 0 0 0 0 2 0 0 0 0 3 0 0 0'
    head -c 28388 /dev/zero | tr '\0' '\377' >damaged
    report 1 '0 11355 0 0 0 0 4 0 0 0 0 2 0 0 3 0'
    head -c 28388 /dev/zero >damaged
    report 1 '0 0 11355 0 0 0 0 0 0 0 0 2 0 0 3 0'
    "$tool" "$header" flip 18 <damaged >next
    mv next damaged
    report 1 '0 1 11354 0 0 0 0 0 0 0 0 2 0 0 3 0'
    has 'one of another kind among many' $'\n          0       474  gnnnnnnnn' "$(out)"
    unharmed 1 "refused, number 5, place 0: $(sentence 5)" \
        inspect "$(header 1 4 2 189 500 5 3)" "$marker" slots
    unharmed 1 "refused, number 7, place 0: $(sentence 7)" inspect "$header" 0500100309 slots
    unharmed 1 "refused, number 8, place 0: The marker is longer or shorter than the header says." inspect "$header" 05000C03 slots
    unharmed 2 'none: No such file' inspect "$header" "$marker" none
    run 0 inspect "$header" "$marker" - <slots
    "$mahyrei" inspect "$header" "$marker" slots >/dev/full 2>"$said/err"
    same 'status of a report that cannot be printed' 2 $?
}

# What is at odds with the answer of mahyrei_run_read is not shown.
once_inspect_at_odds() {
    begin
    mahyrei=$root/target/host/mahyrei_lying
    run 0 inspect "$header" "$marker" slots
    for damage in 'lose 7000' 'move 3787' 'move 6' 'turn 1 7000' 'code 0 0 1 3 4 5'; do
        # shellcheck disable=SC2086  # several words are meant
        damages $damage
        run 2 inspect "$header" "$marker" damaged --svg picture.svg
        same "a report after $damage" '' "$(out)"
        has 'what is said then' 'what was found does not agree with the answer of mahyrei_run_read' "$err"
        same 'a picture then' no "$([ -e picture.svg ] || echo no)"
    done
    mahyrei=$top/bin/mahyrei
}

# drawn COLOUR CELLS: the picture has so many cells of this colour
drawn() {
    same "cells of colour $1" "$2" \
        "$(grep "<path fill=\"$1\"" picture.svg | grep -o z | wc -l)"
}

test_inspect_picture() {
    begin
    damages lose 7050 - flip 140038 - flip 60005 - move 3787 - move 6
    run 1 inspect "$header" "$marker" damaged --svg picture.svg
    drawn '#1d4ed8' 1
    drawn '#c2410c' 1
    drawn '#e6a100' 1
    drawn '#c026a3' 1
    drawn '#0f8a6a' 1
    has 'the title' '>Refused, number 10, place 3000: damaged<' "$(<picture.svg)"
    same 'a ring for the place' 1 "$(grep -c '<circle' picture.svg)"
    same 'words' 2 "$(grep -c '<title>word ' picture.svg)"
    same 'frames' 3 "$(grep -c '<title>frame ' picture.svg)"
    local hostile=$'<a & "b">\n\xFF\xEF\xBF\xBE\xEF\xBF\xBF' # the last are U+FFFE and U+FFFF
    cp damaged "$hostile"
    run 1 inspect -f "$header" "$marker" "$hostile" --svg picture.svg
    has 'an escaped name in the report' '<a & "b">\n\xFF\xEF\xBF\xBE\xEF\xBF\xBF: mahyrei_run_read refuses it' "$(out)"
    has 'an escaped name' ': &#60;a &#38; "b"&#62;????</text>' "$(<picture.svg)"
    if command -v python3 >"$said/out"; then
        same 'the picture is XML' yes "$(python3 -c 'import sys, xml.dom.minidom as dom
dom.parse("picture.svg"); print("yes")')"
    fi
    run 0 inspect -f "$header" "$marker" slots --svg picture.svg
    drawn '#1d4ed8' 0
    has 'the title of sound slots' '>Accepted: slots<' "$(<picture.svg)"
    run 2 inspect "$header" "$marker" damaged --svg none/picture.svg
    has 'a picture that cannot be written' 'none/picture.svg: ' "$err"
    same 'no report then' '' "$(out)"
    run 2 show "$header" slots 0 1 --svg picture.svg
    cp damaged kept
    ln -s damaged leads
    for name in damaged ./damaged leads; do
        run 2 inspect "$header" "$marker" damaged --svg "$name"
        has 'a picture over the slots' "$name: this is what is looked at" "$err"
    done
    run 2 inspect header marker - --svg damaged <damaged
    run 2 inspect header marker damaged --svg marker
    run 2 inspect header marker damaged --svg -
    has 'a picture on standard output' '-: the picture goes to a file' "$err"
    alike 'the slots after that' kept damaged
    "$mahyrei" -q write "$example" "$example_marker" example many
    printf '\x80' | dd of=many bs=1 seek=4000001 conv=notrunc 2>"$said/err"
    run 1 inspect -f "$example" "$example_marker" many --svg picture.svg
    drawn '#e6a100' 1
    same 'the picture stays small' yes "$([ "$(stat -c %s picture.svg)" -lt 200000 ] && echo yes)"
}

test_show() {
    begin
    damages lose 7000 - flip 140038 - flip 140045
    run 0 show "$header" damaged 6999 4
    same 'symbols as slots' "   6999  word 0   symbol 3209    9  .........|......____
   7000  word 1   symbol 3210    -  ................____  no pulse
   7001  word 1   symbol 2266    -  ...............|__!_  a pulse in a guard slot
   7002  word 1   symbol 1322    -  .....|......|...____  2 pulses" "$(out)"
    run 0 show "$header" damaged 3 4
    same 'a marker, a word, and nothing' "      3  marker 3                3  ...|............____
      4  marker 4                9  .........|......____
      5  word 0   symbol 0      14  ..............|.____
      6  no word's symbol here   0  |...............____" "$(out)"
    run 0 show "$header" slots 11354 18446744073709551615
    same 'as far as the slots go' 1 "$(wc -l <"$said/out")"
    head -c 10 slots >short
    run 0 show "$header" short 0 100
    same 'symbols of ten bytes' 4 "$(wc -l <"$said/out")"
    run 0 show "$header" - 0 1 <slots
    unharmed 2 'there is no such symbol' show "$header" slots 11355 1
    unharmed 2 'there is no such symbol' show "$header" empty 0 1
    unharmed 2 'not a number' show "$header" slots -- -1 1
    unharmed 2 'not a number' show "$header" slots 0 1x
    unharmed 2 'not a number' show "$header" slots '' 1
    unharmed 2 'not a number' show "$header" slots 0 18446744073709551616
    unharmed 1 'refused, number 5' show "$(header 1 4 2 189 500 5 3)" slots 0 1
    run 0 show "$(header 1 8 1 1 500 1 1)" slots 0 1
    same 'slots of a symbol at M = 256' 320 "$(grep -Eo '[.|_!]{20,}' "$said/out" | tr -d '\n' | wc -c)"
}

# A run that begins at slot 13 is found, and slots and bytes are those of the capture; without
# --capture thousands of faults are counted, and the report says where the marker begins.
test_inspect_capture() {
    begin
    damages lose 7000
    "$tool" "$header" capture 13 5 1 <damaged >capture
    run 1 inspect --capture "$header" "$marker" capture
    same 'counts of a run in a capture' '0 0 1 0 0 0 0 1 0 0 0 1 2 0 1 0' \
        "$(sed -n '/^How many/,/^$/ s/.* \([0-9]*\) of [0-9]*$/\1/p' "$said/out" | xargs)"
    has 'where it begins' 'The run begins at slot 13 of the capture, in byte 1; slots and bytes' "$(out)"
    has 'where the fault is' 'symbol 7000, slot 140013, byte 17501: row 1, word 1 symbol 3210' "$(out)"
    run 0 inspect --capture "$header" "$marker" - < <("$tool" "$header" capture 13 5 1 <slots)
    has 'a sound run in a capture' 'standard input: mahyrei_run_read accepts it.' "$(out)"
    run 1 inspect "$header" "$marker" capture
    has 'the hint' 'The whole marker begins at slot 13 and not at slot 0.' "$(out)"
    has 'the hint' '--capture finds the run' "$(tr '\n' ' ' <"$said/out")"
    run 1 inspect "$header" "$marker" <(cat slots slots)
    same 'no hint where the marker begins at slot 0' 0 "$(grep -c 'marker begins' "$said/out")"
    damages move 0 # the marker of the next line is no sign of a capture
    run 1 inspect "$header" "$marker" damaged
    same 'no hint for a damaged marker' 0 "$(grep -c 'marker begins' "$said/out")"
    # The same of read, verify and show.
    for words in "read $header $marker capture out" "verify $header $marker capture"; do
        # shellcheck disable=SC2086  # several words are meant
        run 1 -q $words
        has "a hint of ${words%% *}" 'mahyrei: capture: the whole marker begins at slot 13 and not at' "$err"
        # shellcheck disable=SC2086  # several words are meant
        run 1 -q ${words/capture/damaged}
        same "no hint of ${words%% *}" 0 "$(grep -c 'marker begins' "$said/err")"
    done
    run 0 -q show --marker "$marker" "$header" capture 6999 1
    has 'a hint of show' 'capture: the whole marker begins at slot 13 and not at slot 0.' "$err"
    # A second run, and one whose end is missing.
    "$tool" "$header" capture 13 5 1 <slots >>capture
    run 1 inspect --capture "$header" "$marker" capture
    run 0 inspect --capture --from 227113 "$header" "$marker" capture
    has 'the second run' "The run begins at slot $((28395 * 8 + 13)) of the capture" "$(out)"
    head -c 20000 capture >short
    run 1 inspect --capture "$header" "$marker" short
    has 'a run without its end' 'The capture has of the run 19998 bytes, and the header implies 28388.' "$(out)"
    has 'its symbols' 'symbols missing at the end                         3356 of 11355' "$(out)"
    unharmed 1 "refused, number 19, place 0: $(sentence 19)" inspect --capture "$header" "$marker" empty
    unharmed 2 'has symbols that are sent once' inspect --capture "$(header 1 4 5 189 500 5 3 2)" "$marker" capture
    unharmed 2 '--from: slots begin with the run' inspect --from 3 "$header" "$marker" slots
    run 1 inspect --capture "$header" "$marker" capture --svg picture.svg
    cp capture kept
    run 2 inspect --capture "$header" "$marker" capture --svg capture
    alike 'the capture then' kept capture
}

test_show_capture() {
    begin
    damages lose 7000
    "$tool" "$header" capture 13 5 1 <damaged >capture
    run 0 show "$header" damaged 6999 4
    cp "$said/out" wanted
    run 0 show --capture --marker "$marker" "$header" capture 6999 4
    alike 'symbols of a run in a capture' wanted "$said/out"
    same 'where they are' 'mahyrei: capture: symbols are counted from slot 13, in byte 1' "$err"
    run 0 -q show --capture --from 13 "$header" capture 6999 4
    alike 'symbols from a slot on' wanted "$said/out"
    same 'nothing is said of it quietly' '' "$err"
    cat capture capture >twice
    run 0 -q show --capture --from 14 --marker "$marker" "$header" <(tail -c +28396 twice) 75 1
    run 0 -q show --capture --from 227113 --marker "$marker" "$header" twice 6999 4
    alike 'symbols of the second run' wanted "$said/out"
    run 0 -q show --capture --from 454269 "$header" twice 0 1
    unharmed 2 'there is no such symbol' show --capture --from 454320 "$header" twice 0 1
    unharmed 2 'there is no such symbol' show --capture --from 18446744073709551615 "$header" twice 0 1
    unharmed 1 'refused, number 19' show --capture --marker 05000C0308 "$header" capture 0 1
    unharmed 1 'refused, number 5' show --capture "$(header 1 4 2 189 500 5 3)" capture 0 1
    unharmed 2 '--from: slots begin with the run' show --from 13 "$header" capture 0 1
}

# The verdict comes first and a long name is shortened; no line of the legend counts 0; scales have
# their ticks, and few faults in a cell are paler than many.
test_picture_looks() {
    begin
    local long
    long=$(printf 'recording-%.0s' {1..15}).slots
    damages lose 7000
    cp damaged "$long"
    run 1 inspect "$header" "$marker" "$long" --svg picture.svg
    same 'the title of a long name' 1 "$(grep -c '>Refused, number 10, place 7000: recording-recording-.*slots</text>' picture.svg)"
    same 'letters of that title' yes "$([ "$(sed -n 's/.*>\(Refused, number[^<]*\)<.*/\1/p' picture.svg | wc -m)" -lt 100 ] && echo yes)"
    same 'lines of the legend that count 0' 0 "$(grep -c ': 0</text>' picture.svg)"
    same 'swatches without an outline' 0 "$(grep -cE 'width="11" height="11" fill="[^"]*"/>' picture.svg)"
    has 'a tick of the scale' '>100</text>' "$(<picture.svg)"
    # A marker symbol is no larger than a spot of a line, however few the marker has.
    damages lose 0
    run 1 inspect -f "$header" "$marker" damaged --svg picture.svg
    has 'a marker symbol at fault' '<path fill="#1d4ed8" fill-opacity="1" d="M92 112h12v12h-12z"/>' "$(<picture.svg)"
    "$tool" "$header" capture 13 5 0 <damaged >capture
    run 1 inspect -f --capture --from 100 "$header" "$marker" capture --svg picture.svg
    has 'which run of a capture it is' '>from slot 75713 of the capture on: rate 1/2' "$(<picture.svg)"
    # The specification's example has several rows to a line, and so many symbols to a cell: one of
    # them, and then more than half.
    "$mahyrei" -q write "$example" "$example_marker" example many
    strength() {
        run 1 inspect -f "$example" "$example_marker" damaged --svg picture.svg
        sed -n 's/.*<path fill="#1d4ed8" fill-opacity="\([0-9.]*\)".*/\1/p' picture.svg | xargs
    }
    "$tool" "$example" lose 400016 <many >damaged
    same 'one fault of a cell' 0.25 "$(strength)"
    has 'what pale spots are' "words' symbols, 3 rows to a line; up to 48 symbols make a spot, pale where few" "$(<picture.svg)"
    dd if=/dev/zero of=damaged bs=80 seek=50000 count=50 conv=notrunc 2>"$said/err"
    same 'many faults of two cells' '0.7 0.85' "$(strength)"
}

test_inspect_page() {
    begin
    damages lose 7000 - flip 60005
    run 1 inspect "$header" "$marker" damaged --html page.html --svg picture.svg
    cp "$said/out" report
    has 'the picture on the page' "$(<picture.svg)" "$(<page.html)"
    has 'the counts on the page' "$(sed -n '/^How many/,/^$/p' report)" "$(<page.html)"
    has 'faults of symbols on the page' 'const faults = [[3000,1,3],[7000,1,2]];' "$(<page.html)"
    same 'what the page takes from elsewhere' 0 "$(grep -Eo '(src|href)=|https?://[a-z0-9.]*' page.html | grep -cv 'http://www.w3.org')"
    cp damaged $'<script>& "b"\n\xFF'
    run 1 inspect -f "$header" "$marker" $'<script>& "b"\n\xFF' --html page.html
    same 'scripts on the page' '1 1' "$(grep -c '<script>' page.html) $(grep -c '</script>' page.html)"
    cp damaged kept
    run 2 inspect "$header" "$marker" damaged --html damaged
    has 'a page over the slots' 'this is what is looked at' "$err"
    alike 'the slots then' kept damaged
    run 2 inspect "$header" "$marker" damaged --html page.html
    has 'a page that is there' 'page.html: this file already exists' "$err"
    run 2 inspect "$header" "$marker" damaged --html -
    has 'a page on standard output' '-: the picture goes to a file' "$err"
    run 2 show "$header" slots 0 1 --html page.html
    # A ruin does not make the page large.
    head -c 28388 /dev/urandom >damaged
    run 1 inspect -f "$header" "$marker" damaged --html page.html
    same 'the page stays small' yes "$([ "$(stat -c %s page.html)" -lt 500000 ] && echo yes)"
}

# A browser shows what is below the pointer: the word, slots and bytes that show and inspect say.
once_inspect_browser() {
    begin
    local browser at
    browser=$(command -v chromium || command -v chromium-browser || command -v google-chrome)
    if [ -z "$browser" ]; then
        echo 'command: no Chromium here; the page of inspect is not opened'
        return
    fi
    damages lose 7000 - flip 60005 - move 3787
    "$tool" "$header" capture 13 5 0 <damaged >capture
    run 1 inspect "$header" "$marker" damaged --html page.html
    run 1 inspect --capture "$header" "$marker" capture --html captured.html
    shown_at() {
        HOME=$work timeout 60 "$browser" --headless --no-sandbox --disable-gpu --user-data-dir="$work/browser" \
            --dump-dom "file://$work/$1" 2>"$said/err" | sed -n '/id="at"/,/<\/div>/p' | sed 's/.*<div id="at">//; s/<\/div>//' | xargs -0 | tr '\n' ' ' | sed 's/ *$//'
    }
    at=$(shown_at 'page.html#symbol=7000')
    if [ -z "$at" ]; then
        echo 'command: Chromium does not start here; the page of inspect is not opened'
        return
    fi
    same 'a symbol' 'symbol 7000: row 1, word 1 symbol 3210 slots 140000 to 140019, bytes 17500 to 17502: no pulse' "$at"
    same 'a symbol in a capture' 'symbol 7000: row 1, word 1 symbol 3210 slots 140013 to 140032, bytes 17501 to 17504: no pulse' \
        "$(shown_at 'captured.html#symbol=7000')"
    same 'a symbol of no word' "symbol 6: row 0, no word's symbol slots 120 to 139, bytes 15 to 17: sound" \
        "$(shown_at 'page.html#symbol=6')"
    # Where the ring is, is the place of the refusal; and the marker is where it is drawn.
    at=$(sed -n 's/.*<circle cx="\([0-9]*\)" cy="\([0-9]*\)".*/\1,\2/p' page.html)
    has 'the symbol in the ring' 'symbol 3000: row 0, word 0 symbol 2995 ' "$(shown_at "page.html#at=$at")"
    # The pointer itself, over a picture that is drawn at half its size.
    { cat page.html && echo "<style>svg { width: 504px; height: auto }</style><script>
const r = picture.getBoundingClientRect(), [x, y] = [${at%,*} / 2, ${at#*,} / 2];
picture.dispatchEvent(new PointerEvent('pointermove', {clientX: r.left + x, clientY: r.top + y}));
</script>"; } >pointed.html
    same 'the symbol below the pointer' "$(shown_at "page.html#at=$at")" "$(shown_at pointed.html)"
    has 'a marker symbol' 'symbol 3787: row 1, marker symbol 2 ' "$(shown_at 'page.html#at=121,277')"
    # A spot of several rows shows its fault, in whichever row that is, and not a symbol beside it.
    "$mahyrei" -q write "$example" "$example_marker" example many
    "$tool" "$example" lose 400016 <many >damaged
    run 1 inspect "$example" "$example_marker" damaged --html many.html
    at=$(sed -n 's/.*<circle cx="\([0-9]*\)" cy="\([0-9]*\)".*/\1,\2/p' many.html)
    has 'a fault among many symbols' 'symbol 400016: row 157, ' "$(shown_at "many.html#at=$at")"
    has 'how many there are' ': no pulse the only fault among the 48 symbols of this spot' \
        "$(shown_at "many.html#at=$at")"
    has 'a sound symbol of many' ': sound' "$(shown_at "many.html#at=200,$((${at#*,} - 8))")"
    has 'beside the map' 'Point at a symbol' "$(shown_at 'page.html#at=10,300')"
}
