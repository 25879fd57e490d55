# Fades over a run: the counts of the words, other rows and steps, and the picture.
# shellcheck shell=bash

# The planner's question: 13 words of 3780 symbols, with these rows and steps.
planned() {
    header 1 4 "$1" "$2" 2000 4 6
}

begin_fades() {
    begin
    echo '5000 1500' >list
    three=$(header 1 8 6 63 900 2 3) # three words of 1890 symbols, 7568 symbols
}

# counted HEADER FADES COUNT...: the list FADES, with / for a new line, gives these counts
counted() {
    local h=$1 fades=${2//\//$'\n'} rest word=0 first
    shift 2
    run 0 -q fades "$h" - <<<"$fades"
    same "what is said beside the counts of $fades" '' "$err"
    # Of a line such as `2..12 0` each word counts.
    rest=$(sed -n '3,$ p' "$said/out" | awk '/^ / { n = split($1, ends, /\.\./)
        for (i = ends[1]; i <= ends[n]; i++) print $2 }' | xargs)
    same "the counts of $fades" "$*" "$rest"
}

test_fades() {
    begin_fades
    run 0 fades "$(planned 1 1)" list
    same 'one row' '13 words of 3780 symbols, 1 fade over 1500 of 49192 symbols
    word     hit
       0       0
       1    1500  |####################|
   2..12       0
worst: word 1, 1500 of 3780 symbols' "$(out)"
    logged "$said/err" "fades header=$(planned 1 1) list=10 answer=0 place=0 status=0"
    has 'the list in the log' " list-sha256=$(sha256sum list | cut -d ' ' -f 1) list-file=list " "$err"
    run 0 -q fades "$(planned 21 36)" list
    same '21 rows' '13 words of 3780 symbols, 1 fade over 1500 of 64328 symbols
    word     hit
       0     355  |####################|
       1     223  |#############       |
   2..12       0
worst: word 0, 355 of 3780 symbols' "$(out)"
    run 0 -q fades "$(planned 36 180)" list
    same '36 rows' '13 words of 3780 symbols, 1 fade over 1500 of 276232 symbols
    word     hit
       0       1  |#                   |
       1      42  |####################|
   2..12       0
worst: word 1, 42 of 3780 symbols' "$(out)"
    counted "$three" '' 0 0 0
    has 'an empty list' '3 words of 1890 symbols, 0 fades over 0 of 7568 symbols' "$(out)"
    has 'an empty list' $'    0..2       0\nno word is hit' "$(out)"
    counted "$three" '0 2' 0 0 0
    counted "$three" '1892 2' 0 0 0
    counted "$three" '2 1' 1 0 0
    counted "$three" '3 1' 0 0 0
    counted "$three" '0 1892' 945 0 0
    counted "$three" '1000 500/2000 300' 556 55 0
    counted "$three" '7567 1' 0 0 1
    counted "$three" '0 7568' 1890 1890 1890
    counted "$three" '0 7567/7567 1' 1890 1890 1890
    counted "$(header 1 8 6 63 900 2 3 32)" '1000 500/2000 300' 556 55 0 # whatever the factor
    has 'symbols without copies' 'of 7568 symbols' "$(out)"
    counted "$example" '0 844488' 2520
    counted "$example" '400000 5000' 0
    local all
    mapfile -t all < <(yes 1890 | head -n 210)
    counted "$largest" '0 4553218' "${all[@]}"
    run 0 -q fades header empty
    has 'the header from a file' '2 words of 3780 symbols' "$(out)"
}

# What a list may look like, and what not.
test_fade_lists() {
    begin_fades
    local text
    for text in '1000 500/2000 300' '1000 500/2000 300/' '/1000 500//2000 300//' \
        '# clouds/1000 500/  # more/2000 300' '1000 500# a cloud/2000 300 # and one' \
        $' 1000\t 500  /\t2000\t300' $'1000 500\r/2000 300\r/\r' '01000 00500/2000 300'; do
        counted "$three" "$text" 556 55 0
    done
    printf '1000 500\n2000 300' >list # no line end at the end
    run 0 -q fades "$three" list
    has 'a list without a last line end' '556' "$(out)"
    for text in 5 '5 6 7' 'x 1' '5 x' '-1 1' '5 +1' '5,1' '5:1' 4294967296\ 1 '5 4294967296' \
        '5 18446744073709551617' '0x5 1' '1.5 1' '5 1 #2 3/7' '5 1 x' '"5" 1'; do
        printf '0 1\n%s\n' "${text//\//$'\n'}" >list
        unharmed 2 "list: line $([[ $text == */* ]] && echo 3 || echo 2) is not the first symbol of" \
            fades "$three" list
    done
    logged "$said/err" "fades header=$three list=$(stat -c %s list) answer=- place=- status=2"
    printf '0 1\n5\0 1\n' >list
    unharmed 2 'list: line 2 is not' fades "$three" list
    run 2 fades "$three" - <<<'5'
    has 'a list from standard input' 'standard input: line 1 is not' "$err"
    unharmed 2 'none: No such file' fades "$three" none
    unharmed 2 'directory: Is a directory' fades "$three" directory
    unharmed 2 'only one input can be -' fades - -
}

# refused_fades FADES WHAT: 22, and this of a line
refused_fades() {
    printf '%s\n' "${1//\//$'\n'}" >list
    unharmed 1 "mahyrei: refused, number 22, place 0: $(sentence 22)" fades "$three" list
    has "where $1 breaks the rules" "mahyrei: list: $2" "$err"
    logged "$said/err" "fades header=$three list=$(stat -c %s list) answer=22 place=0 status=1"
}

test_fades_refused() {
    begin_fades
    refused_fades '7567 2' 'line 1: the fade ends with symbol 7568, and the run with symbol 7567'
    refused_fades '0 1/7568 1' 'line 2: the fade ends with symbol 7568, and the run with symbol 7567'
    refused_fades '4294967295 1' 'line 1: the fade ends with symbol 4294967295, and the run'
    refused_fades '4294967295 4294967295' 'line 1: the fade ends with symbol 8589934589, and the run'
    refused_fades '# a list/5 0' 'line 2: the fade has no symbol'
    refused_fades '3 2//4 1' 'line 3: the fade begins at symbol 4, and the one before it ends with symbol 4'
    refused_fades '5 1/3 1' 'line 2: the fade begins at symbol 3, and the one before it ends with symbol 5'
    refused_fades '5 1/5 1' 'line 2: the fade begins at symbol 5, and the one before it ends with symbol 5'
    echo '5 1' >list
    local wrong number
    for wrong in "${three:0:18}=1" "${three:0:19}1=1" "$(header 3 8 6 63 900 2 3)=2" \
        "$(header 1 9 6 63 900 2 3)=3" "$(header 1 8 6 0 900 2 3)=4" "$(header 1 8 6 62 900 2 3)=5" \
        "$(header 1 8 6 63 0 2 3)=6" "$(header 1 8 6 63 900 33 3)=7" \
        "$(header 1 8 6 63 900 2 3 5)=20"; do
        number=${wrong#*=}
        refused "$number" 0 fades "${wrong%=*}" list
        echo '5 0' >broken
        refused "$number" 0 fades "${wrong%=*}" broken # before the list
    done
    says "$(header 1 8 6 62 900 2 3): N is 6, B is 62, and S is 1890" \
        fades "$(header 1 8 6 62 900 2 3)" list
    says "$(header 1 8 6 63 900 2 3 5): copies is 5" fades "$(header 1 8 6 63 900 2 3 5)" list
    run 1 fades "$(old_header "$three")" list
    has 'an old header' 'mahyrei widen OLD NEW' "$err"
    unharmed 2 'number of operands' fades "$three"
    unharmed 2 'operand too many' fades "$three" list list
    unharmed 2 'capture: this command has no such option' fades --capture "$three" list
}

test_fades_tried() {
    begin_fades
    run 0 -q fades --try --pairs 36:180,1:1,21:36,2:5,129:3,1:0 "$(planned 21 36)" list
    same 'three pairs, and three that there are not' \
        '6 pairs of N and B tried: 13 words of 3780 symbols, 1 fade over 1500 symbols
      N     B   symbols   worst   word  header
      1     1     49192    1500      1  500402FA020604000000
     21    36     64328     355      0  505448FA020604000000
     36   180    276232      42      1  509168FA020604000000
      1     0  no 4
      2     5  no 5
    129     3  no 4' "$(out)"
    run 0 -q fades --try "$(planned 36 180)" list
    has 'how many were tried' '660 pairs of N and B tried: 13 words of 3780 symbols, 1 fade' "$(out)"
    has 'the shortest' $'\n      1     1     49192    1500      1  500402FA020604000000\n' "$(out)"
    has 'its own' $'\n*    36   180    276232      42      1  509168FA020604000000\n' "$(out)"
    # But for its own, each beats all before it.
    same 'those that no shorter run beats' '' "$(awk 'NR > 3 && !/^\*/ {
        if (NR > 4 && ($3 <= symbols || $4 >= worst)) print; symbols = $3; worst = $4 }' "$said/out")"
    out >best
    run 0 -q fades --try --pairs all "$(planned 36 180)" list
    same 'all that were tried' 660 "$(awk 'NR > 2' "$said/out" | wc -l)"
    same 'the best are among them' "$(grep -c 020604000000 best)" \
        "$(grep -Fxc -f <(grep 020604000000 best) "$said/out")"
    # Each is what its own header gives.
    local line rows step symbols worst word h
    while read -r rows step symbols worst word h; do
        run 0 -q fades "$h" list
        has "the symbols of $rows:$step" "of $symbols symbols" "$(out)"
        has "the worst word of $rows:$step" "worst: word $word, $worst of 3780 symbols" "$(out)"
        same "the header of $rows:$step" "$(planned "$rows" "$step")" "$h"
    done < <(awk 'NR > 3 && NR % 9 == 0 && !/^\*/' best)
    # Runs that end before the last fade.
    echo '60000 1000' >late
    run 0 -q fades --try --pairs 1:1,21:36 "$(planned 21 36)" late
    has 'a run that ends before it' $'\n      1     1  no 22' "$(out)"
    has 'what that means' 'no 22: the run of 1 of them ends before the last fade' "$(out)"
    run 0 -q fades --try "$(planned 21 36)" late
    has 'that it is left out' 'ends before the last fade, and they are left out' "$(out)"
    same 'no such line' '' "$(grep '  no 22' "$said/out")"
    run 1 fades --try "$(planned 1 1)" late
    has 'its own run ends before it' "refused, number 22, place 0: $(sentence 22)" "$err"
    same 'nothing is tried then' '' "$(out)"
    : >none
    run 0 -q fades --try "$(planned 1 77)" none
    has 'no fade' $'\n      1     1     49192       0      -  500402FA020604000000\n' "$(out)"
    has 'one row with another step' $'\n*     1    77     49192       0      -  ' "$(out)"
}

test_fades_pairs() {
    begin_fades
    local pairs
    for pairs in x 1 1: :1 '1:1,' ',1:1' 1:1,,2:2 '' 1:1:1 1:x all,1:1 ALL -1:1 '1: 1' \
        99999999999999999999:1; do
        unharmed 2 '--pairs: pairs of numbers such as 21:36,36:180, or all' \
            fades --try "--pairs=$pairs" "$three" list
    done
    unharmed 2 '--pairs: this goes with --try' fades --pairs 1:1 "$three" list
    unharmed 2 'its argument is missing' fades "$three" list --pairs
    unharmed 2 'try: this command has no such option' write --try "$header" "$marker" frames out
    run 0 -q fades --try --pairs 18446744073709551615:1,1:1,1:1 "$three" list
    has 'numbers of any size' '18446744073709551615     1  no 4' "$(out)"
    same 'the same twice' 2 "$(grep -c '^ *1     1 ' "$said/out")"
}

test_fades_picture() {
    begin_fades
    run 0 -q fades --svg picture.svg "$(planned 21 36)" list
    has 'the table beside it' 'worst: word 0, 355 of 3780 symbols' "$(out)"
    has 'the title' '>Worst is word 0, 355 of 3780 symbols: list</text>' "$(<picture.svg)"
    has 'the symbols of words' 'symbols of words that are hit: 578</text>' "$(<picture.svg)"
    has 'the others' 'markers, and places of no word, that are hit: 922</text>' "$(<picture.svg)"
    same 'a bar for each word that is hit' '0 1' \
        "$(sed -n 's/.*<title>word \([0-9]*\): .*/\1/p' picture.svg | xargs)"
    has 'the second bar' '<title>word 1: 223 of 3780 symbols</title>' "$(<picture.svg)"
    same 'it ends' '</svg>' "$(tail -n 1 picture.svg)"
    if command -v python3 >"$said/out"; then
        python3 -c 'import sys, xml.dom.minidom; xml.dom.minidom.parse(sys.argv[1])' picture.svg
        same 'it is XML' 0 $?
    fi
    run 0 -q fades -f --svg picture.svg "$three" empty
    has 'no fade' '>No word is hit: empty</text>' "$(<picture.svg)"
    same 'no chart without bars' 0 "$(grep -c 'symbols hit, by word' picture.svg)"
    same 'no bar' '' "$(grep '<title>word ' picture.svg)"
    run 0 -q fades -f --svg picture.svg "$three" - <<<'0 7568'
    has 'all of it' '>Worst is word 0, 1890 of 1890 symbols: standard input</text>' "$(<picture.svg)"
    echo '2 1' >$'<a & "b">\n\xFF'
    run 0 -q fades -f --svg picture.svg "$three" $'<a & "b">\n\xFF'
    has 'an escaped name' ': &#60;a &#38; "b"&#62;??</text>' "$(<picture.svg)"
    run 0 -q fades -f --svg picture.svg "$largest" empty
    run 0 -q fades -f --try --pairs 1:1 --svg picture.svg "$three" empty
    has 'a picture beside what was tried' '>No word is hit: empty</text>' "$(<picture.svg)"
    # It goes over nothing that is read, and appears whole or not at all.
    bytes "$three" >three
    cp list kept
    local name
    ln -s list link
    for name in list ./list link three; do
        run 2 fades --svg "$name" three list
        has "a picture over $name" 'this is what is looked at, and no picture goes there' "$err"
    done
    alike 'the list after that' kept list
    unharmed 2 '-: the picture goes to a file; standard output has the report' fades --svg - "$three" list
    unharmed 2 'none/out: its folder cannot be opened' fades --svg none/out "$three" list
    unharmed 2 'directory: Is a directory' fades --svg directory "$three" list
    run 2 fades --svg /dev/full "$three" empty
    has 'a full device' '/dev/full: No space left on device' "$err"
    same 'no table then' '' "$(out)"
    echo '7567 2' >late
    unharmed 1 'refused, number 22' fades --svg out "$three" late
}

test_fades_log() {
    begin_fades
    run 0 --log log fades "$three" empty
    same 'standard error beside a log' '' "$err"
    logged log "fades header=$three list=0 answer=0 place=0 status=0"
    run 2 --log log fades none list
    logged log 'fades header=- list=- answer=- place=- status=2'
    run 2 --log list fades "$three" list
    has 'the list as log' 'list: this is the log' "$err"
    same 'the list after that' '5000 1500' "$(<list)"
    run 2 --log picture fades --svg picture "$three" empty
    has 'the picture as log' 'picture: this is the log' "$err"
    same 'no picture then' no "$([ -e picture ] && echo yes || echo no)"
    local forged=$'list\n2026-11-15T16:50:01Z fades answer=0 place=0 status=0'
    echo '5 1' >"$forged"
    run 0 fades "$three" "$forged"
    same 'lines about a name of two lines' 1 "$(wc -l <"$said/err")"
    echo '5 0' >"$forged"
    run 1 fades "$three" "$forged"
    same 'lines of a refusal about it' 3 "$(wc -l <"$said/err")"
    echo 5 >"$forged"
    run 2 fades "$three" "$forged"
    same 'lines about a wrong line of it' 2 "$(wc -l <"$said/err")"
    "$mahyrei" fades "$three" empty 2>"$said/err" >/dev/full
    same 'status of counts that cannot be printed' 2 $?
    logged "$said/err" "fades header=$three list=0 answer=0 place=0 status=2"
    "$mahyrei" fades --try --pairs 1:1 "$three" empty 2>/dev/null >&-
    same 'status with standard output closed' 2 $?
}

once_fades_faults() {
    begin_fades
    local fault
    for fault in read:1:5 write:1:28 thread:1:11; do
        prefix=(env "LD_PRELOAD=$faults" "FAULT=$fault")
        unharmed 2 'mahyrei: ' fades "$three" empty
    done
    for fault in write:1:28 fsync:1:5 close:1:5 rename:1:5 thread:1:11; do
        prefix=(env "LD_PRELOAD=$faults" "FAULT=$fault")
        unharmed 2 'mahyrei: ' fades --svg out "$three" empty
    done
    prefix=(env "LD_PRELOAD=$faults" FAULT=thread:3:11) # while others are tried
    unharmed 2 'a stack of 4 MiB for the library: ' fades --try "$three" empty
    prefix=(env "LD_PRELOAD=$faults" FAULT=slow)
    run 0 -q fades "$three" - < <(printf '1000 500\n2000 300\n')
    has 'counts, bit by bit' '556' "$(out)"
    prefix=(bash -c 'ulimit -s 64; exec "$@"' bash)
    run 0 -q fades --try --pairs 6:63 "$three" empty
    has 'counts on a stack of 64 KiB' '60187E70810304000000' "$(out)"
    prefix=()
    seq -f '%.0f 1' 0 2 4553216 >many # more than two million fades
    run 0 -q fades "$largest" many
    has 'many fades' '2276609 fades over 2276609 of 4553218 symbols' "$(out)"
    unharmed 2 '/dev/zero: too long' fades "$three" /dev/zero
    prefix=(bash -c 'ulimit -v 40000; exec "$@"' bash)
    unharmed 2 'Cannot allocate memory' fades "$largest" many
    prefix=()
}
