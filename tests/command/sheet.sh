# Headers.
# shellcheck shell=bash

test_sheet() {
    begin
    run 0 sheet "$example"
    same 'the sheet of the example' '1/2 64 84 120 223 16 2 1 844488 67559040 1' "$(out)"
    run 0 sheet - <header
    same 'a sheet' '1/2 16 5 189 500 5 3 2 11355 227100 1' "$(out)"
    run 0 sheet "$largest"
    same 'the largest sheet' '1/3 256 127 255 2048 32 64 210 4553218 1457029760 1' "$(out)"
    run 0 sheet "${example:0:12}08000000"
    same 'two copies' '1/2 64 84 120 223 16 2 1 1688976 135118080 2' "$(out)"
    run 0 sheet "${example:0:12}0C000000"
    same 'three copies' '1/2 64 84 120 223 16 2 1 2533464 202677120 3' "$(out)"
    run 0 sheet "${example:0:12}80000000"
    same '32 copies' '1/2 64 84 120 223 16 2 1 27023616 2161889280 32' "$(out)"
    run 0 sheet 21FDFF00104080000000
    same 'the largest of all' '1/3 256 127 255 2048 32 64 210 145702976 46624952320 32' "$(out)"
    local byte
    for byte in 00 14 84 FC; do
        run 1 sheet "${example:0:12}${byte}000000"
        same "a factor of $byte" 'no 20' "$(out)"
        has 'what is said then' ": copies is $((16#$byte / 4))" "$err"
    done
    run 1 sheet "${example:0:12}05000000"
    same 'a set bit after the factor' 'no 1' "$(out)"
    run 1 sheet "$(header 1 4 2 189 500 5 3)"
    same 'a sheet that is refused' 'no 5' "$(out)"
    has 'what is said then' "refused, number 5, place 0: $(sentence 5)" "$err"
    run 1 sheet empty
    same 'the sheet of nothing' 'no 1' "$(out)"
    run 1 sheet "${example}00"
    same 'the sheet of eleven bytes' 'no 1' "$(out)"
    run 1 sheet "$(old_header "$example")"
    same 'the sheet of eight bytes' 'no 1' "$(out)"
    run 2 sheet none
    same 'the sheet of a missing file' '' "$(out)"
}

# The line and the proved program's line, for headers that pass and headers that fail.
once_sheet_beside_runsheet() {
    if [ -z "$runsheet" ]; then
        echo 'command: no runsheet was given; the sheets are not compared with it'
        return
    fi
    begin
    local headers=(hex: 00 "${header:0:18}" "${header}00" "${header:0:19}1" "${example}0000"
        "$(old_header "$header")" "$(old_header "$example")")
    local shapes=('4 5 189' '6 84 120' '8 10 21' '8 10 20' '8 127 255' '6 21 60' '7 4 180' '2 1 256'
        '2 128 256' '8 128 256' '3 1 1' '5 1 77')
    local sizes=('1 1 1' '2048 32 64' '223 16 2' '0 1 1' '2049 1 1' '1 0 1' '1 33 1' '1 1 0'
        '1 1 65' '4095 63 127')
    RANDOM=4711
    for rate in 0 1 2 3; do
        for shape in "${shapes[@]}"; do
            size="$((RANDOM % 2048 + 1)) $((RANDOM % 32 + 1)) $((RANDOM % 64 + 1))"
            # shellcheck disable=SC2086  # several words are meant
            headers+=("$(header $rate $shape $size $((1 << RANDOM % 6)))"
                "$(header $rate $shape ${sizes[RANDOM % ${#sizes[@]}]} $((RANDOM % 64)))")
        done
    done
    for size in "${sizes[@]}"; do
        # shellcheck disable=SC2086  # several words are meant
        headers+=("$(header 1 8 10 21 $size)")
    done
    for m in 0 1 2 3 4 5 6 7 8 9 15; do
        headers+=("$(header 2 "$m" 1 9 77 4 33)" "$(header 0 "$m" 129 9 77 4 33)")
    done
    for ((i = 0; i < 64; i++)); do # any bits, and any factor
        headers+=("$(printf '%04X%04X%04X%02X000000' $((RANDOM * 2 % 65536)) $((RANDOM * 2 + 1)) \
            $RANDOM $((4 * i)))" "$(header 1 6 84 120 223 16 2 "$i")")
    done
    for ((i = 0; i < 26; i++)); do # each of the zeros at the end
        headers+=("${header:0:12}$(printf '%08X' $((4 << 24 | 1 << i)))")
    done
    local wanted='' got=''
    for h in "${headers[@]}"; do
        wanted+="$h $(bytes "${h#hex:}" | "$runsheet")"$'\n'
        got+="$h $("$mahyrei" sheet "$h" 2>/dev/null)"$'\n'
    done
    same 'sheets beside those of runsheet' "$wanted" "$got"
    checks=$((checks + ${#headers[@]} - 1))
}

test_sheet_by_name() {
    begin
    run 0 sheet --long "$example"
    same 'a sheet by name' 'header 5950F01BE80204000000 rate 1/2 m 6 N 84 B 120 F 223 W 16 A 2 '\
'copies 1 M 64 k 7526 S 2520 C 1 R 333 pooled 844488 symbols 844488 group 80 slots 67559040 '\
'marker_bytes 16 frame_bytes 446 slot_bytes 8444880 delay_bytes 418320' \
        "$(awk '{ print $1, $2 }' "$said/out" | xargs)"
    run 0 sheet -j "$example"
    same 'a sheet as JSON' '{"header":"5950F01BE80204000000","accepted":true,"number":0,'\
'"rate":"1/2","m":6,"N":84,"B":120,"F":223,"W":16,"A":2,"copies":1,"M":64,"k":7526,"S":2520,'\
'"C":1,"R":333,"pooled":844488,"symbols":844488,"group":80,"slots":67559040,"marker_bytes":16,"frame_bytes":446,'\
'"slot_bytes":8444880,"delay_bytes":418320}' "$(out)"
    run 1 sheet --json "$(header 3 4 5 189 500 5 3)"
    same 'a refused sheet as JSON' '{"header":"D0157A3E828304000000","accepted":false,"number":2,'\
'"sentence":"There is no such code rate; it is 0, 1 or 2.","rate":"none","m":4,"N":5,"B":189,'\
'"F":500,"W":5,"A":3,"copies":1}' "$(out)"
    run 0 sheet --json "$(header 1 6 84 120 223 16 2 4)"
    has 'a sheet with copies' '"copies":4,"M":64,' "$(out)"
    has 'its symbols' '"pooled":844488,"symbols":3377952,"group":80,"slots":270236160,' "$(out)"
    run 1 sheet --long "$(header 1 4 0 189 500 5 3)"
    has 'a refused sheet by name' 'N             0 ' "$(out)"
    has 'its number' "no            4            $(sentence 4)" "$(out)"
    has 'the field that is wrong' ': N is 0' "$err"
    run 1 sheet --json 00
    same 'a short header as JSON' '{"header":"00","accepted":false,"number":1,'\
'"sentence":"'"$(sentence 1)"'"}' "$(out)"
}

test_header() {
    begin
    local fields=(rate=1/2 m=6 N=84 B=120 F=223 W=16 A=2)
    run 0 header "${fields[@]}"
    same 'the header of the example' "$example" "$(out)"
    same 'what is said beside it' '' "$err"
    run 0 header A=2 W=16 F=223 B=120 N=84 m=6 rate=1/2 -o file
    alike 'the header as bytes' <(bytes "$example") file
    same 'what is printed beside it' '' "$(out)"
    run 0 header "${fields[@]}" --output=-
    alike 'the header as bytes on standard output' file "$said/out"
    local copies
    for copies in 1 2 3 4 8 16 32; do
        run 0 header copies="$copies" "${fields[@]}"
        same "the header of $copies copies" "$(header 1 6 84 120 223 16 2 "$copies")" "$(out)"
    done
    run 2 header "${fields[@]}" -n -o file
    has 'a header that is there' 'file: this file already exists' "$err"
    for wrong in 'm=9 3 m' 'N=0 4 N' 'B=257 4 B' 'F=2049 6 F' 'W=33 7 W' 'A=65 6 A' \
        'A=18446744073709551615 6 A' 'copies=0 20 copies' 'copies=5 20 copies' \
        'copies=33 20 copies' 'copies=64 20 copies' 'copies=65 20 copies' \
        'copies=18446744073709551615 20 copies'; do
        read -r field number name <<<"$wrong"
        rm -f file
        local given=("${fields[@]}" copies=1)
        run 1 header -o file "${given[@]/#$name=*/$field}"
        has "a header with $field" "refused, number $number, place 0: $(sentence "$number")" "$err"
        has "the field of $field" "mahyrei: header: $name is ${field#*=}" "$err"
        same "the file of $field" no "$([ -e file ] && echo yes || echo no)"
    done
    run 1 header rate=1/2 m=6 N=84 B=121 F=223 W=16 A=2
    has 'fields that do not fit' 'N is 84, B is 121, and S is 2520' "$err"
    run 2 header "${fields[@]:1}"
    has 'a missing field' 'rate: this field is missing' "$err"
    run 2 header "${fields[@]}" N=84
    has 'a field given twice' 'N=84: this field is given twice' "$err"
    run 2 header "${fields[@]}" copies=1 copies=1
    has 'the factor given twice' 'copies=1: this field is given twice' "$err"
    run 2 header "${fields[@]}" n=84
    has 'no such field' 'n=84: no such field' "$err"
    run 2 header "${fields[@]}" number_of_rows=84
    has 'no such field' 'no such field' "$err"
    run 2 header "${fields[@]}" 84
    has 'no field at all' '84: no such field' "$err"
    for wrong in m= m=x m=-1 m=+6 m=0x6 'm= 6' m=6.0 m=18446744073709551616 m=99999999999999999999; do
        run 2 header "${fields[@]/#m=*/$wrong}"
        has 'a value that is not a number' "$wrong: the value is not a number" "$err"
    done
    run 2 header "${fields[@]/#rate=*/rate=1}"
    has 'no such rate' 'the rate is 1/3, 1/2 or 2/3' "$err"
    run 2 header
    has 'no fields' 'number of operands' "$err"
}

test_explain() {
    local number
    for number in $(numbers); do
        run 0 explain "$number"
        same "what number $number means" "$(sentence "$number")" "$(out)"
    done
    run 0 explain $((7000 * 256 + 10))
    same 'an answer as the calls give it' "number 10, place 7000: $(sentence 10)" "$(out)"
    for number in 17 273 30 255 x -1 '' 18446744073709551616; do # 273 is 17 at place 1
        run 2 explain -- "$number"
        has "no number $number" 'no call gives this number' "$err"
    done
}
