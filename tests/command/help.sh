# Help on one command, a command that was mistyped, and files of another form.
# shellcheck shell=bash

# Every command has its usage, a line on each operand and each option that it has, and an example
# which is a line that it takes.
test_help_of_each() {
    begin
    local command word usage example
    run 0 help
    cp "$said/out" all
    run 0 --help
    alike 'help without a command' all "$said/out"
    while read -r command; do
        run 0 help "$command"
        cp "$said/out" one
        run 0 "$command" --help
        alike "both ways to ask for help on $command" one "$said/out"
        usage=$(head -n 1 one)
        has "usage of $command" "usage: mahyrei $command" "$usage"
        for word in ${usage#*mahyrei "$command"}; do
            case $word in
                [A-Z]* | '[FOLDER]' | '[COMMAND]')
                    word=${word%'}'}
                    # The value of an option is within brackets.
                    [[ $word == *']' && $word != '['* ]] ||
                        same "$command on $word" 1 "$(grep -cE "^  ${word//[\[\]]/.} +[a-z]" one)"
                    ;;
                '[--'* | '{--'*)
                    word=${word#[\[\{]} word=${word%']'}
                    same "$command on $word" 1 "$(grep -cE "^  (    |-., )$word " one)"
                    ;;
            esac
        done
        # No option is spoken of that it does not have.
        while read -r word; do
            same "$command has $word" yes "$(grep -qE "^  (    |-., )$word( |$)" one && echo yes)"
        done < <(grep -oE -- '--[a-z][a-z0-9-]+' one | sort -u)
        example=$(tail -n 1 one)
        has "an example of $command" "  mahyrei $command" "$example"
        # Its files are not here, so it fails, but not for its form.
        # shellcheck disable=SC2086  # several words are meant
        (cd directory && "$mahyrei" ${example#  mahyrei } </dev/null >"$said/out" 2>"$said/err") || true
        same "the example of $command is right usage" 0 "$(grep -c '^usage:' "$said/err")"
    done < <(sed -En 's/^  ([a-z][a-z-]*) +.*/\1/p' all)
}

# With --sigmf there are no operands for header and marker, and the usage says so.
test_usage_of_sigmf() {
    begin
    run 2 verify --sigmf "$header" "$marker" slots
    has 'the usage' '{--sigmf | HEADER MARKER} SLOTS' "$err"
    run 0 help verify
    has 'what it does there' '--sigmf                  takes header and marker from the metadata' "$(out)"
    run 0 help write
    has 'and for what is written' '--sigmf                  puts metadata beside SLOTS' "$(out)"
    has 'which has both' '[--sigmf] [--slot-rate HZ] HEADER MARKER FRAMES SLOTS' "$(out)"
}

test_mistyped() {
    begin
    local pair
    for pair in wirte:write wrote:write Write:write reed:read inspct:inspect rack-laod:rack-load \
        scann:scan verfy:verify uplinkwrite:uplink-write hlep:help; do
        run 2 "${pair%:*}" x
        same "what is said of ${pair%:*}" \
            "mahyrei: ${pair%:*}: no such command"$'\n'"mahyrei: did you mean \`mahyrei ${pair#*:}\`?" "$err"
        run 2 help "${pair%:*}"
        has "help on ${pair%:*}" "did you mean \`mahyrei ${pair#*:}\`?" "$err"
        run 2 "${pair%:*}" --help
        has "--help of ${pair%:*}" "did you mean \`mahyrei ${pair#*:}\`?" "$err"
        same "a page of usage for ${pair%:*}" '' "$(out)"
    done
    for pair in convert x '' "$(printf 'w%.0s' {1..5000})" $'wri\nte\e'; do
        run 2 "$pair"
        same "lines about a command that is far from all" 2 "$(wc -l <"$said/err")"
    done
    run 2 convert
    has 'where the commands are' "\`mahyrei --help\` lists all commands" "$err"
}

# A header or a marker in digits, in a file.
test_text_in_a_file() {
    begin
    local text='text: this holds hexadecimal text, but bytes are needed; give the text itself, as with '
    # shellcheck disable=SC2016  # it is said so
    text+='"$(cat FILE)", or turn it into bytes, as xxd -r -p does'
    echo "$header" >text
    says "$text" \
        write text "$marker" frames out
    says "$text" \
        sheet text
    printf '%s\r\n' "$header" >text
    says "$text" \
        sheet text
    printf '\xEF\xBB\xBF%s\r\n' "$header" >text # as some editors begin
    says "$text" \
        sheet text
    echo "$marker" >text
    says "$text" \
        find "$header" text slots
    # Every command that takes a header says so.
    local words name
    echo '0 7' >fades
    echo "$header" >text
    for words in "read text $marker slots out" "verify --capture text $marker slots" \
        "scan text $marker slots" 'cut text slots 0 out' 'fades text fades' \
        'rack-load rack 0 0 0 text' "inspect text $marker slots" 'show text slots 0 1' 'narrow text out'; do
        # shellcheck disable=SC2086  # several words are meant
        says "$text" $words
    done
    old_header "$header" >text
    says "$text" widen text out
    for name in frames slots empty; do
        run 1 sheet "$name"
        same "$name is no text" 0 "$(grep -c 'hexadecimal' "$said/err")"
    done
    run 1 sheet "${header}00"
    same 'text itself is right' 0 "$(grep -c 'hexadecimal' "$said/err")"
    bytes "$header" >text
    run 0 sheet text
}

# One word for one thing: slots begin with the run, and are no capture. In what the documents show, a
# command takes a file that is called so only where it takes a capture.
once_slots_are_no_capture() {
    local lines
    lines=$(grep -hE '^ *(\$ )?mahyrei( -[a-z]+)* (read|verify|inspect|show) ' "$root/README.md" \
        "$root"/docs/manual/*.md "$root/host/man/mahyrei.1" | sed 's/\\//g')
    same 'lines that show it' yes "$([ "$(wc -l <<<"$lines")" -ge 12 ] && echo yes)"
    same 'slots that are called a capture' '' \
        "$(grep -v -- '--capture' <<<"$lines" | grep -E ' (capture|record)[a-z.]*( |$)')"
    same 'slots that a message calls a capture' '' \
        "$(grep -hE '^ *mahyrei: (capture|record)[a-z.]*: symbol ' "$root"/docs/manual/*.md "$root/host/man/mahyrei.1")"
}

test_pack() {
    begin
    run 0 unpack slots bytes
    same 'a byte to a slot' $((8 * 28388)) "$(stat -c %s bytes)"
    same 'its first symbols' '0000010000000000000010000000000000000000' \
        "$(head -c 40 bytes | od -An -v -tx1 | tr -d ' \n' | sed 's/0\(.\)/\1/g')"
    run 0 pack bytes out
    alike 'slots that were packed again' slots out
    head -c 13 bytes >few
    run 0 pack -f few out
    same 'spare bits' '0400' "$(od -An -v -tx1 out | tr -d ' \n')"
    run 0 pack -f empty out
    same 'nothing packed' 0 "$(stat -c %s out)"
    rm out
    run 0 pack - - <bytes
    alike 'through standard files' slots "$said/out"
    printf '\1\0\2' >few
    unharmed 2 'few: byte 2 is 2; where a slot has a byte, that is 0 or 1' pack few out
    unharmed 2 'none: No such file' unpack none out
    unharmed 2 'number of operands' pack bytes
    cp bytes kept
    run 2 pack -f bytes bytes
    has 'over the input' 'bytes: this is the input too, which is not replaced' "$err"
    alike 'the input then' kept bytes
    # What is refused since it is not packed.
    local text='bytes: each byte of it is 0 or 1: these look like slots that are not packed, a byte to '
    text+="a slot; \`mahyrei pack\` packs them"
    says "$text" read "$header" "$marker" bytes out
    says "$text" verify "$header" "$marker" bytes
    says "$text" find "$header" "$marker" bytes
    says "$text" scan "$header" "$marker" bytes
    says "$text" read --capture "$header" "$marker" bytes out
    run 1 inspect "$header" "$marker" bytes
    has 'what inspect says of it' 'Each byte is 0 or 1: these look like slots that are not packed' "$(out)"
    head -c 100 /dev/zero >zeros
    run 1 find "$header" "$marker" zeros
    same 'slots without a pulse' 0 "$(grep -c 'not packed' "$said/err")"
    run 1 find "$header" 05000C0308 slots
    same 'slots that are packed' 0 "$(grep -c 'not packed' "$said/err")"
}
