# Right and wrong command lines.
# shellcheck shell=bash

test_usage() {
    begin
    run 0 --help
    has 'help' 'usage: mahyrei' "$(out)"
    has 'help' 'Status: 0 done' "$(out)"
    same 'help says nothing else' '' "$err"
    run 0 -h
    run 0 write --help
    run 0 --version
    has 'version' 'mahyrei ' "$(out)"
    unharmed 2 'no command: one is needed'
    unharmed 2 'no such command' ''
    same 'where to find one' "mahyrei: \`mahyrei --help\` lists all commands" \
        "$(tail -n 1 "$said/err")"
    unharmed 2 'no such command' convert "$header" "$marker" frames out
    unharmed 2 'no such command' Write "$header" "$marker" frames out
    unharmed 2 'number of operands' write
    unharmed 2 'number of operands' write "$header" "$marker" frames
    unharmed 2 'operand too many' write "$header" "$marker" frames out out
    unharmed 2 'operand too many' write "$header" "$marker" frames out -- -x
    unharmed 2 'operand too many' write "$header" "$marker" frames out -
    unharmed 2 'number of operands' read "$header" "$marker" slots
    unharmed 2 'operand too many' read "$header" "$marker" slots out out
    unharmed 2 'number of operands' sheet
    unharmed 2 'operand too many' sheet "$header" "$header"
    unharmed 2 'no such option' write --copies 2 "$header" "$marker" frames out
    unharmed 2 'no such option' --loud write "$header" "$marker" frames out
    unharmed 2 'mahyrei: -x: no such option' -qx write "$header" "$marker" frames out
    unharmed 2 'output: this command has no such option' -qo file write "$header" "$marker" frames out
    unharmed 2 'long: this command has no such option' -l write "$header" "$marker" frames out
    run 0 write -qnf "$header" "$marker" frames out
    same 'what several letters make quiet' '' "$err"
    unharmed 2 'its argument is missing' write "$header" "$marker" frames out --log
    unharmed 2 'no such option' --help=yes write "$header" "$marker" frames out
    unharmed 2 'only one input can be -' write - - frames out
    unharmed 2 'only one input can be -' write - "$marker" - out
    unharmed 2 'only one input can be -' read "$header" - - out
    same 'usage after a mistake' \
        'usage: mahyrei read [--no-clobber] [--force] [--json] [--capture] [--expect-sha256 DIGEST] [--from SLOT] {--sigmf | HEADER MARKER} SLOTS FRAMES' \
        "$(tail -n 1 "$said/err")"
    same 'lines of a mistake' 2 "$(wc -l <"$said/err")"
    same 'no line of the log for wrong usage' 0 "$(grep -Ec "$log_line" "$said/err")"
}

# Options as getopt_long takes them: joined, apart, cut short, in any place.
test_options() {
    begin
    local fields=(rate=1/2 m=6 N=84 B=120 F=223 W=16 A=2)
    bytes "$example" >wanted
    for words in '-oout' '-o out' '--output out' '--output=out' '--out=out' '-fqoout'; do
        rm -f out
        # shellcheck disable=SC2086  # several words are meant
        run 0 header "${fields[@]}" $words
        alike "a header by $words" wanted out
        rm -f out
        # shellcheck disable=SC2086  # several words are meant
        run 0 $words header "${fields[@]}"
        alike "a header by $words before the command" wanted out
    done
    prefix=(env POSIXLY_CORRECT=1)
    run 0 sheet "$header" --json
    has 'an option after the operands, in any case' '{"header":' "$(out)"
    prefix=()
    unharmed 2 '--output: its argument is missing' header "${fields[@]}" --output
    unharmed 2 '-o: its argument is missing' header "${fields[@]}" -o
    unharmed 2 '--l: no such option' sheet --l "$header" # log, long
    # A mistake says two lines, whatever it is.
    for words in --loud -x --log 'write --log' 'explain' 'explain 1 2' 'explain 1 --log x' 'none'; do
        # shellcheck disable=SC2086  # several words are meant
        run 2 $words
        same "lines about $words" 2 "$(wc -l <"$said/err")"
    done
    has 'a mistake before the command is known' 'usage: mahyrei explain NUMBER' \
        "$("$mahyrei" --loud explain 2>&1)"
}
