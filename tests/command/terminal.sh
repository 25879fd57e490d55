# What a terminal shows.
# shellcheck shell=bash

once_progress() {
    begin
    prefix=(bash -c '(sleep 0.7; cat frames) | "$@"' bash)
    run 0 write "$header" "$marker" - out
    same 'no progress where there is no terminal' 1 "$(wc -l <"$said/err")"
    logged "$said/err" "write $sound"
    prefix=()
    if ! command -v script >"$said/out"; then
        echo 'command: no script(1) here; the progress line is not looked at on a terminal'
        return
    fi
    # A busy machine may see more of it than half a second and a second.
    local wiped=$'\r\e\\[K' form
    form="^(${wiped}mahyrei: [a-z ]+, [0-9]+\\.[05] s)+${wiped}mahyrei: 3 frames, 1,500 bytes, as 28,388 bytes of slots: out on disk.\$"
    script -qec "(sleep 1.2; cat frames) | $mahyrei --log log write -f $header $marker - out" /dev/null \
        </dev/null >"$said/out"
    same "progress on a terminal: $(cat -v "$said/out")" yes "$([[ $(out) =~ $form ]] && echo yes)"
    has 'the beginning of it' 'mahyrei: reading the input, 0.5 s' "$(out)"
    alike 'slots beside a progress line' slots out
    script -qec "$mahyrei --log log sheet $header" /dev/null </dev/null >"$said/out"
    same 'no progress where little is to be done' $'1/2 16 5 189 500 5 3 2 11355 227100 1\r' "$(out)"
}

# Bytes are not for a terminal unless somebody insists.
once_terminal() {
    begin
    if ! command -v script >"$said/out"; then
        echo 'command: no script(1) here; no output goes to a terminal'
        return
    fi
    local name
    for name in - /dev/stdout /dev/tty; do
        script -qec "$mahyrei -q read $header $marker slots $name" /dev/null </dev/null >"$said/out"
        same "status with $name as a terminal" 2 $?
        has "bytes for a terminal, as $name" 'this is a terminal' "$(out)"
        script -qec "$mahyrei -q read -f $header $marker slots $name" /dev/null </dev/null >"$said/out"
        same "status with $name as a terminal, forced" 0 $?
        has "bytes for a terminal all the same, as $name" 'Frame 0: keep the recording.' "$(out)"
    done
    script -qec "$mahyrei header rate=1/2 m=6 N=84 B=120 F=223 W=16 A=2 -o -" /dev/null \
        </dev/null >"$said/out"
    same 'status of a header to a terminal as bytes' 2 $?
    script -qec "$mahyrei header rate=1/2 m=6 N=84 B=120 F=223 W=16 A=2" /dev/null \
        </dev/null >"$said/out"
    same 'a header on a terminal' "$example"$'\r' "$(out)"
}
