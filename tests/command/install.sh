# What is installed, the man page, and the demo.
# shellcheck shell=bash

# The crew sheet, the man page, the C header and the sentences have the same numbers, and none has a 17.
once_numbers() {
    local number sentences=''
    same 'numbers of the crew sheet' "$(seq -s ' ' 0 16) $(seq -s ' ' 18 29)" "$(numbers | xargs)"
    same 'numbers of the man page' "$(numbers | xargs)" \
        "$(sed -n 's/^\.IP \([0-9]*\) 4$/\1/p' "$root/host/man/mahyrei.1" | xargs)"
    same 'numbers of the header' "$(numbers | xargs)" \
        "$(gcc -E -P "$root/include/mahyrei.h" | tr -d '\n' |
            sed 's/.*enum mahyrei_number {\([^}]*\)}.*/\1/' |
            grep -Eo '= *[0-9]+' | tr -d '= ' | xargs)"
    for ((number = 0; number < 256; number++)); do
        ! "$mahyrei" explain "$number" >"$said/out" 2>&1 || sentences+=" $number"
    done
    same 'numbers that are explained' "$(numbers | xargs)" "${sentences# }"
}

# The man page has the crew sheet's sentences, all subcommands and all options.
once_manual() {
    local text number
    for number in $(numbers); do
        text=$(awk -v from=".IP $number 4" '$0 == from { on = 1; next } /^\./ { on = 0 }
            on { printf "%s%s", gap, $0; gap = " " }' "$root/host/man/mahyrei.1")
        same "the man page on number $number" "$(sentence "$number")" "$text"
    done
    local version word
    version=$("$mahyrei" --version)
    has 'version and date of the man page' "\"$version\"" "$(grep '^\.TH' "$root/host/man/mahyrei.1")"
    for word in $("$mahyrei" --help | sed -En 's/^  ([a-z][a-z-]*) +.*/\1/p'); do
        has "the man page on $word" ".B ${word//-/\\-}"$'\n' "$(<"$root/host/man/mahyrei.1")"
    done
    for word in $("$mahyrei" --help | grep -Eo -- '^ +(-., )?--[a-z-]+' | grep -Eo -- '--[a-z-]+'); do
        has "the man page on $word" "${word//-/\\-}" "$(<"$root/host/man/mahyrei.1")"
    done
    # Each command begins a line of the synopsis, with its operands as --help has them.
    same 'lines of the synopsis' "$("$mahyrei" --help |
        sed -En 's/^(usage:|      ) mahyrei ([a-z][a-z-]*) .*/\2/p' | xargs)" \
        "$(sed -n '/^.SH SYNOPSIS/,/^.SH DESC/p' "$root/host/man/mahyrei.1" | awk '
            /^\.B mahyrei [a-z]/ && begins { print $3 } { begins = $1 == ".br" || $1 == ".SH" }' |
            sed 's/\\\\//g' | xargs)"
    if command -v man >"$said/out"; then
        same 'what man says of the man page' '' \
            "$(MANWIDTH=90 man --warnings -l "$root/host/man/mahyrei.1" 2>&1 >/dev/null)"
    fi
}

made() {
    make -s -C "$root" --no-print-directory "$@" >"$said/out" 2>&1
    same "status of make $*: $(out)" 0 $?
}

# The calls that mahyrei.h declares.
calls_declared() {
    sed -n 's/^uint64_t \(mahyrei_[a-z_]*\)(.*/\1/p' "$root/include/mahyrei.h" | sort
}

# README fits on a page, and its lines of the command print what it says.
once_readme() {
    begin
    same 'README has at most 150 lines' yes "$([ "$(wc -l <"$root/README.md")" -le 150 ] && echo yes)"
    sed -n '/^## The command$/,/^## /p' "$root/README.md" | sed -n 's/^    //p' >session
    same 'lines of README that are run' 5 "$(grep -c '^\$ mahyrei ' session)"
    head -c 446 /dev/zero | tr '\0' 'F' >frames
    for ((i = 0; i < 16; i++)); do printf '%b' "\\x$(printf '%02x' "$i")"; done >marker
    local line PATH=$folder/bin:$PATH
    while IFS= read -r line; do
        printf '$ %s\n' "${line#\$ }"
        eval "${line#\$ }" 2>&1
    done < <(grep '^\$ ' session) | cut -c 1-96 >printed
    same 'what README prints' "$(sed 's/ \.\.\.$//' session | cut -c 1-96)" "$(<printed)"
}

# What `make install` puts down serves README's example program.
once_install() {
    begin
    local prefix_folder="$work/a prefix" files libraries flags
    made install PREFIX="$prefix_folder"
    libraries='lib/cmake/mahyrei/mahyrei-config-version.cmake lib/cmake/mahyrei/mahyrei-config.cmake'
    libraries+=' lib/libmahyrei.a lib/libmahyrei.so lib/libmahyrei.so.0.5.0 lib/libmahyrei.so.4'
    files="bin/mahyrei include/mahyrei.h include/mahyrei_plain.h $libraries lib/pkgconfig/mahyrei.pc"
    files+=' share/bash-completion/completions/mahyrei share/mahyrei/python/mahyrei/__init__.py'
    files+=' share/mahyrei/python/mahyrei/__init__.pyi share/mahyrei/python/mahyrei/py.typed'
    same 'files of make install' "$files share/man/man1/mahyrei.1 share/man/man3/mahyrei.3" \
        "$(cd "$prefix_folder" && find . ! -type d -printf '%P\n' | sort | xargs)"
    nm -g --defined-only "$prefix_folder/lib/libmahyrei.a" >"$said/out"
    same 'calls of the library' "$(calls_declared | xargs)" \
        "$(grep -Eo ' T mahyrei_[a-z_]*$' "$said/out" | cut -c 4- | sort |
            comm -12 - <(calls_declared) | xargs)"
    awk '/^```c$/ { on = 1; next } /^```$/ { on = 0 } on' "$root/README.md" >program.c
    flags="'-I$prefix_folder/include' '-L$prefix_folder/lib' -lmahyrei"
    if command -v pkg-config >"$said/out"; then
        flags=$(PKG_CONFIG_PATH=$prefix_folder/lib/pkgconfig pkg-config --cflags --libs mahyrei)
    else
        echo 'command: no pkg-config here; its file is not tried'
    fi
    eval "gcc -std=c11 program.c $flags -o program"
    same 'status of the compiler' 0 $?
    same 'what the program of README says' $'written: 0\nread: 10, place 100' \
        "$(LD_LIBRARY_PATH=$prefix_folder/lib ./program)"
    same 'the installed command' "$("$mahyrei" --version)" "$("$prefix_folder/bin/mahyrei" --version)"
    made uninstall PREFIX="$prefix_folder"
    same 'what make uninstall leaves' '' "$(ls -d "$prefix_folder" 2>/dev/null)"
    made install DESTDIR="$work/stage" PREFIX=/opt/mahyrei
    same 'a staged command' yes "$([ -x stage/opt/mahyrei/bin/mahyrei ] && echo yes)"
    has 'prefix of a staged library' 'prefix=/opt/mahyrei' \
        "$(cat stage/opt/mahyrei/lib/pkgconfig/mahyrei.pc)"
    : >stage/opt/kept
    made uninstall DESTDIR="$work/stage" PREFIX=/opt/mahyrei
    same 'what is left of what was staged' $'stage\nstage/opt\nstage/opt/kept' "$(find stage | sort)"
}

# Below /usr/local the module goes where Debian's Python looks for it.
once_install_debian() {
    begin
    local folder
    folder=$(/usr/bin/python3 -c 'import site; print(*site.getsitepackages(), sep="\n")' \
        2>"$said/err" | grep '^/usr/local/lib/python3' | head -n 1)
    if [ -z "$folder" ]; then
        echo "command: no python3 of the system that looks into /usr/local; its folder is not tried"
        return
    fi
    made install DESTDIR="$work/stage" PREFIX=/usr/local
    same 'the module where Python looks' '__init__.py __init__.pyi py.typed' \
        "$(find "stage$folder/mahyrei" -printf '%P\n' | sort | xargs)"
    has 'the library it takes' '_LIBRARY = "/usr/local/lib/libmahyrei.so.4"' \
        "$(<"stage$folder/mahyrei/__init__.py")"
    same 'the staged module' 10 "$(MAHYREI_LIBRARY=$work/stage/usr/local/lib/libmahyrei.so.4 \
        PYTHONPATH=stage$folder /usr/bin/python3 -c 'import mahyrei
print(len(mahyrei.header(rate=1, m=4, N=1, B=1, F=1, W=1, A=1)))')"
    made uninstall DESTDIR="$work/stage" PREFIX=/usr/local
    same 'what is left below /usr/local' '' "$(find stage ! -type d 2>/dev/null)"
}

# A prefix that is named from where one is.
once_install_here() {
    begin
    local here
    here=$(realpath --relative-to="$root" "$work/here")
    made install PREFIX="$here"
    has 'prefix of a library that was put here' "prefix=$root/$here" "$(<here/lib/pkgconfig/mahyrei.pc)"
    made uninstall PREFIX="$here"
    same 'what is left here' '' "$(ls -d here 2>/dev/null)"
}

# What a packager gives adds to what the build needs; clang has warnings of its own.
once_packager() {
    begin
    local compiler=clang
    command -v clang >"$said/out" || compiler=cc
    printf '%s\n' '#!/bin/sh' "echo \"\$@\" >>'$work/compiled'" "exec $compiler \"\$@\"" >compiler
    chmod +x compiler
    made CC="$work/compiler" CFLAGS='-O0 -g' CPPFLAGS=-DPACKAGED LDFLAGS=-Wl,-z,now \
        HOST="$work/built" program
    for word in -O0 -g -DPACKAGED -Wl,-z,now -std=c11 -Iinclude -Werror; do
        has 'words to the compiler' " $word " " $(cat compiled) "
    done
    same 'the command of a packager' "$("$mahyrei" --version)" "$(built/mahyrei --version)"
}

# Subcommands, options and fields.
once_completion() {
    begin
    completed() {
        PATH=$folder/bin:$PATH bash -c '. "$1/host/package/completion.bash"; shift; COMP_WORDS=("$@")
            COMP_CWORD=$(($# - 1)); _mahyrei 2>/dev/null; echo "${COMPREPLY[*]}"' bash "$root" "$@"
    }
    same 'a subcommand' verify "$(completed mahyrei ver)"
    same 'subcommands' "$("$mahyrei" --help | sed -n 's/^ *\(usage:\)* mahyrei \([a-z][a-z-]*\) .*/\2/p' |
        sort | xargs)" "$(completed mahyrei '' | xargs -n 1 | sort | xargs)"
    same 'an option' --no-clobber "$(completed mahyrei write --no)"
    same 'an option of read' --capture "$(completed mahyrei read --cap)"
    same 'an option with digits' --expect-sha256 "$(completed mahyrei read --exp)"
    same 'a capture' frames "$(completed mahyrei find "$header" "$marker" fra)"
    same 'a command to be explained' scan "$(completed mahyrei help sc)"
    same 'nothing for a slot' '' "$(completed mahyrei find --from '')"
    same 'a field' 'rate=1/3 rate=1/2 rate=2/3' "$(completed mahyrei header rate)"
    same 'a factor' "$(printf 'copies=%s ' 1 2 3 4 8 16 32 | sed 's/ $//')" \
        "$(completed mahyrei header cop)"
    same 'an old header' header "$(completed mahyrei widen hea)"
    same 'a new header' header "$(completed mahyrei narrow hea)"
    same 'an option of fades' '--try' "$(completed mahyrei fades --t)"
    same 'a list of fades' frames "$(completed mahyrei fades "$header" fra)"
    same 'a rate' '1/3 1/2' "$(completed mahyrei pass-write 1)"
    same 'a rate of spread' 2/3 "$(completed mahyrei spread 2)"
    same 'a file after the rate' frames "$(completed mahyrei pass-read -n 1/3 fra)"
    same 'subcommands of the uplink' 'uplink-write uplink-read' "$(completed mahyrei up)"
    same 'the slots of the uplink' frames "$(completed mahyrei uplink-read fra)"
    same 'subcommands of the rack' 'rack-load rack-read rack-drop rack-lend rack-list' \
        "$(completed mahyrei rack)"
    same 'a rack' frames "$(completed mahyrei rack-load fra)"
    same 'missions and places' '0 1 2 3' "$(completed mahyrei rack-load rack '')"
    same 'a place' 3 "$(completed mahyrei rack-drop rack 0 0 3)"
    same 'a borrower' '0 1 2 3 none' "$(completed mahyrei rack-lend rack 0 0 1 '')"
    same 'a header for the rack' header "$(completed mahyrei rack-load rack 0 0 1 hea)"
    same 'a file' frames "$(completed mahyrei write "$header" "$marker" fra)"
    same 'the file of the log' frames "$(completed mahyrei --log fra)"
    same 'a subcommand after the log' verify "$(completed mahyrei --log log ver)"
    same 'a rack after a bound' frames "$(completed mahyrei rack-drop --wait 5 fra)"
    same 'a mission after a bound' '0 1 2 3' "$(completed mahyrei rack-drop --wait 5 rack '')"
    same 'nothing for a number' '' "$(completed mahyrei rack-drop --wait '')"
    same 'the file of a picture' frames "$(completed mahyrei inspect --svg fra)"
    same 'the file of a header' frames "$(completed mahyrei header -o fra)"
}

# The proofs of the demo, with a kit that proves nothing: what is said, and kept.
once_demo_proofs() {
    begin
    cat >rt <<'END'
#!/bin/sh
[ "$1" = lib ] || exit 1
awk -F'[ :]' '!/^#/ && NF && !/^(promises.*|examples|bench_table|sheet|runsheet.*):/ {
    print "crate " $1 ": modules loaded=0 checked=1"; print "logic=proved functions=1" }' "$CRATES"
exit "${LIB:-0}"
END
    chmod +x rt
    export CRATES=$root/crates.txt RT=$work/rt
    local crates
    crates=$(./rt lib | grep -c '^logic=proved')
    "$root/demo/prove" "$work/log" >"$said/out" 2>&1
    same 'status of the proofs' 0 $?
    has 'how far they are' "proving crate 11 of $crates ... (10 done, $((crates - 10)) left; " "$(out)"
    has 'the end of them' "$crates crates proved; $work/log has what the prover said" "$(tail -n 1 "$said/out")"
    # One for every ten crates, and a few besides.
    same 'lines in all' yes "$([ "$(wc -l <"$said/out")" -lt $((crates / 10 + 4)) ] && echo yes)"
    same 'lines that were kept' $((2 * crates)) "$(wc -l <log)"
    LIB=1 "$root/demo/prove" "$work/log" >"$said/out" 2>&1
    same 'status of proofs that fail' 1 $?
    has 'what is said of them' 'demo: not proved, or not built' "$(out)"
    RT=none "$root/demo/prove" "$work/log" >"$said/out" 2>&1
    same 'status without a kit' 1 $?
    unset CRATES RT
}

once_demo() {
    begin
    "$root/demo/run" "$mahyrei" "$tool" "$said/picture.svg" >"$said/out" 2>&1
    same 'status of the demo' 0 $?
    same 'its last line' 'all as expected' "$(tail -n 1 "$said/out")"
    has 'a command as one types it' "  \$ mahyrei scan $header $marker recording monday" "$(out)"
    alike "the manual's picture, which make picture draws" "$root/docs/damage.svg" "$said/picture.svg"
    # A command that answers otherwise is seen.
    printf '%s\n' '#!/bin/sh' "case \$1 in verify) exec '$mahyrei' verify \"\$2\" 00 \"\$4\" ;; esac" \
        "exec '$mahyrei' \"\$@\"" >other
    chmod +x other
    "$root/demo/run" other "$tool" >"$said/out" 2>&1
    same 'status of a demo with a wrong answer' 1 $?
    has 'its last line' 'NOT as expected: ' "$(tail -n 1 "$said/out")"
}
