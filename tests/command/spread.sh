# How far one bit spreads.
# shellcheck shell=bash

test_spread() {
    begin
    run 0 spread 1/3 0
    has 'the first places of bit 0' '52 0 1 2 4 5 6 7 8 15' "$(out)"
    same 'lines of it' 1 "$(wc -l <"$said/out")"
    same 'places after the count' 53 "$(wc -w <"$said/out")"
    same 'places in ascending order' "$(cut -d ' ' -f 2- "$said/out" | tr ' ' '\n' | sort -nu | xargs)" \
        "$(cut -d ' ' -f 2- "$said/out")"
    logged "$said/err" 'spread rate=1/3 bit=0 answer=0 place=0 status=0'
    out >by_name
    run 0 spread 0 0
    alike 'a rate by its number' by_name "$said/out"
    run 0 spread 2/3 1
    has 'the first places of bit 1' '30 2 4 5 15' "$(out)"
    local known
    for known in '0 5005 48' '0 4697 84' '0 4992 34' '1 7525 30' '1 7217 54' '1 14 26' \
        '2 10045 22' '2 1176 42' '2 189 14'; do
        read -r rate bit count <<<"$known"
        run 0 -q spread "$rate" "$bit"
        same "how many change with bit $bit at rate $rate" "$count $((count + 1))" \
            "$(cut -d ' ' -f 1 "$said/out") $(wc -w <"$said/out")"
        same 'what is said beside it' '' "$err"
    done
}

# refused_spread NUMBER RATE BIT NAME: refused, with nothing printed; NAME is the rate in the log
refused_spread() {
    run 1 spread "$2" "$3"
    has "bit $3 at rate $2" "mahyrei: refused, number $1, place 0: $(sentence "$1")" "$err"
    same 'what is printed then' '' "$(out)"
    logged "$said/err" "spread rate=$4 bit=$3 answer=$1 place=0 status=1"
}

test_spread_refusals() {
    begin
    refused_spread 27 1/3 5006 1/3
    refused_spread 27 1/2 7526 1/2
    refused_spread 27 2/3 10046 2/3
    refused_spread 27 0 18446744073709551615 1/3
    refused_spread 2 3 0 3
    refused_spread 2 18446744073709551615 18446744073709551615 18446744073709551615
    same 'the sentence of 27' 'There is no such block bit; a block has 5006, 7526 or 10046.' \
        "$(sentence 27)"
    unharmed 2 'number of operands' spread 1/3
    unharmed 2 'operand too many' spread 1/3 0 0
    unharmed 2 'this command has no such option' spread -n 1/3 0
    unharmed 2 'x: the rate is 1/3, 1/2 or 2/3, or its number' spread x 0
    for bit in x '' -1 0x1 1.5 18446744073709551616; do
        unharmed 2 "$bit: not a number, or too large" spread -- 1/3 "$bit"
    done
    run 2 --log log spread 1/3 x
    logged log 'spread rate=1/3 bit=- answer=- place=- status=2'
    run 2 --log log spread y x
    logged log 'spread rate=- bit=- answer=- place=- status=2'
    "$mahyrei" spread 1/3 0 2>/dev/null >/dev/full
    same 'status of places that cannot be printed' 2 $?
    mkdir 1
    run 0 --log 1/3 spread 1/3 0 # neither operand is a file
    logged 1/3 'spread rate=1/3 bit=0 answer=0 place=0 status=0'
}

once_spread_faults() {
    begin
    prefix=(env "LD_PRELOAD=$faults" FAULT=thread:1:11)
    unharmed 2 'a stack of 4 MiB for the library: ' spread 1/3 0
    prefix=(bash -c 'ulimit -s 64; exec "$@"' bash)
    run 0 spread 1/3 0
    has 'places on a stack of 64 KiB' '52 0 1 2 4 5 6 7 8 ' "$(out)"
    prefix=()
}
