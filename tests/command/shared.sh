# The shared library and what is installed beside it: C, CMake, Python, the man page of the calls.
# shellcheck shell=bash

# The calls without their prefix, and then the functions that mahyrei.h defines.
short=(bit_spread delay_read delay_write fades_count header_narrow header_widen pass_read pass_write
    rack_drop rack_lend rack_load rack_read run_cut run_find run_find_from run_read run_write
    uplink_read uplink_write word_read word_write answer_number answer_place delay_symbol
    word_block_bytes)

# The functions that the headers declare: those that are not defined there.
declared() {
    gcc -E -P "$root/include/mahyrei_plain.h" | tr '\n' ' ' | sed 's/{[^{}]*}/;/g' | tr ';' '\n' |
        grep -v static | sed -n 's/.*[ *]\([a-z_]*\)(.*)$/\1/p' | sort
}

install_all() {
    begin
    make -s -C "$root" --no-print-directory install PREFIX="$work/prefix" >"$said/out" 2>&1
    same 'status of make install' 0 $?
    export PKG_CONFIG_PATH=$work/prefix/lib/pkgconfig
    awk '/^```c$/ { on = 1; next } /^```$/ { on = 0 } on' "$root/README.md" >program.c
}

program_says=$'written: 0\nread: 10, place 100'

once_shared() {
    install_all
    local so=prefix/lib/libmahyrei.so
    same 'functions of the headers' "$(printf 'mahyrei_%s\n' "${short[@]:0:21}" delay_read_many \
        delay_write_many field field_name fields_check header_fields header_make sentence sizes \
        version | sort | xargs)" \
        "$(declared | xargs)"
    same 'names that can be seen in the shared library' "$(declared | xargs)" \
        "$(nm -D --defined-only $so | sed -n 's/^[0-9a-f]* T \(.*\)@@MAHYREI_4$/\1/p' | sort | xargs)"
    same 'and no others' "$(declared | wc -l)" \
        "$(nm -D --defined-only $so | grep -vc ' A MAHYREI_4$')"
    same "names of Debian's package" "$(declared | xargs)" \
        "$(sed -n 's/^ \(mahyrei_[a-z_]*\)@MAHYREI_4 .*/\1/p' "$root/debian/libmahyrei4.symbols" | xargs)"
    same 'what it needs of others' libc.so.6 \
        "$(readelf -d $so | sed -n 's/.*NEEDED.*\[\(.*\)\]/\1/p' | xargs)"
    same 'its own name' libmahyrei.so.4 "$(readelf -d $so | sed -n 's/.*SONAME.*\[\(.*\)\]/\1/p')"
    same 'no code that has to be changed when it is loaded' '' "$(readelf -d $so | grep TEXTREL)"
    same 'no stack that can be run' '' "$(readelf -lW $so | grep 'GNU_STACK.*RWE')"
    local version
    version=$("$mahyrei" --version)
    same 'the links to it' "libmahyrei.so.4 libmahyrei.so.${version#* }" \
        "$(readlink $so) $(readlink $so.4)"
    has 'what the module looks for' '_LIBRARY = "libmahyrei.so.4"' "$(<"$root/python/mahyrei.py")"
    # README's program, with the shared library and with the archive.
    local flags="-Iprefix/include -Lprefix/lib -lmahyrei"
    if command -v pkg-config >"$said/out"; then
        flags=$(pkg-config --cflags --libs mahyrei)
    fi
    # shellcheck disable=SC2086  # several words are meant
    gcc -std=c11 program.c $flags -o program
    same 'README, shared' "$program_says" "$(LD_LIBRARY_PATH=prefix/lib ./program)"
    has 'what it looks for' '[libmahyrei.so.4]' "$(readelf -d program)"
    # shellcheck disable=SC2086  # several words are meant
    gcc -std=c11 -static program.c $flags -o program
    same 'README, static' "$program_says" "$(./program)"
    # The manual's delay line, with symbols 1, 2, 3 and so on.
    {
        echo '#include <stdio.h>'
        echo '#include <mahyrei.h>'
        echo 'static const uint8_t header[] = {0x60, 0x18, 0x7E, 0x70, 0x81, 3, 4, 0, 0, 0};'
        echo 'static unsigned n;'
        echo 'static int more(void) { return n < 1000; }'
        echo 'static uint64_t take(void) { return ++n % 256; }'
        echo 'static void give(unsigned q) { if (n == 1 || n / 2 == 189) printf("%u ", q); }'
        echo 'int main(void) {'
        sed -n '/^    static uint8_t area/,/^    }$/p' "$root/docs/manual/library.md"
        echo 'return 0; }'
    } >line.c
    # shellcheck disable=SC2086  # several words are meant
    gcc -std=c11 -Wall -Wextra -Werror -static line.c $flags -o line
    same 'the manual, a delay line' '1 0 123 ' "$(./line)"
    make -s -C "$root" --no-print-directory uninstall PREFIX="$work/prefix"
    same 'what make uninstall leaves' '' "$(ls -d prefix 2>/dev/null)"
}

# Another shared library that has every name without the prefix, and says 0 to everything. Whichever
# of the two comes first, README's program gets the right answers, and so does the command.
once_foreign_names() {
    install_all
    local name order
    for name in "${short[@]}"; do
        echo "unsigned long $name(void) { return 0; }"
    done >foreign.c
    gcc -std=c11 -shared -fPIC foreign.c -o libforeign.so
    same 'names of the foreign library' "${#short[@]}" "$(nm -D --defined-only libforeign.so |
        grep -c ' T ')"
    for order in '-lforeign -lmahyrei' '-lmahyrei -lforeign'; do
        # shellcheck disable=SC2086  # several words are meant
        gcc -std=c11 -Wall -Wextra -Werror -Iprefix/include program.c -L. -Lprefix/lib \
            -Wl,--no-as-needed $order -o program
        same "README beside a foreign library, $order" "$program_says" \
            "$(LD_LIBRARY_PATH=.:prefix/lib ./program)"
        # shellcheck disable=SC2086  # several words are meant
        gcc -std=c11 -Iprefix/include program.c -L. -Wl,--no-as-needed ${order/-lmahyrei/} \
            prefix/lib/libmahyrei.a -o program
        same "README beside a foreign library, with the archive" "$program_says" \
            "$(LD_LIBRARY_PATH=. ./program)"
    done
    same 'README with the foreign library loaded first' "$program_says" \
        "$(LD_LIBRARY_PATH=.:prefix/lib LD_PRELOAD=$work/libforeign.so ./program)"
    damage lose 7000
    prefix=(env "LD_PRELOAD=$work/libforeign.so")
    refused 10 7000 read "$header" "$marker" damaged out
    prefix=()
    # A program may have all these names for itself.
    {
        echo '#include <mahyrei_plain.h>'
        printf 'void %s(void);\n' "${short[@]}"
    } >own.c
    gcc -std=c11 -Wall -Wextra -Werror -Iprefix/include -fsyntax-only own.c 2>"$said/err"
    same "short names in a program of one's own: $(<"$said/err")" 0 $?
    # Of what the headers define as macros too, every name is ours.
    same 'macros without the prefix' '' "$(gcc -E -dM -Iprefix/include own.c | cut -d ' ' -f 2 |
        sort >with; gcc -E -dM -include stddef.h -include stdint.h -x c /dev/null |
        cut -d ' ' -f 2 | sort | comm -13 - with | grep -v '^MAHYREI_')"
}

# The version is the same wherever it can be seen.
once_version() {
    install_all
    local version
    version=$("$mahyrei" --version)
    version=${version#mahyrei }
    {
        echo '#include <mahyrei_plain.h>'
        echo '#include <stdio.h>'
        echo 'int main(void) { printf("%s %s %d.%d.%d", mahyrei_version(), MAHYREI_VERSION,'
        echo '    MAHYREI_VERSION_MAJOR, MAHYREI_VERSION_MINOR, MAHYREI_VERSION_PATCH); }'
    } >version.c
    gcc -std=c11 -Iprefix/include version.c prefix/lib/libmahyrei.a -o version
    same 'the version in C' "$version $version $version" "$(./version)"
    has 'the version of the pkg-config file' "Version: $version" "$(<prefix/lib/pkgconfig/mahyrei.pc)"
    has 'the version among the changes' $'\n## '"${version%.*}"$'\n' "$(<"$root/CHANGELOG.md")"
    if command -v python3 >"$said/out"; then
        same 'the version in Python' "$version $version" "$(PYTHONPATH=prefix/share/mahyrei/python \
            python3 -B -c 'import mahyrei
print(mahyrei.__version__, mahyrei._library.mahyrei_version().decode())')"
    fi
}

once_cmake() {
    if ! command -v cmake >"$said/out" || ! command -v pkg-config >"$said/out"; then
        echo 'command: no cmake or pkg-config here; the example for CMake is not built'
        return
    fi
    install_all
    awk '/^```cmake$/ { on = 1; next } /^```$/ { on = 0 } on' "$root/docs/manual/library.md" \
        >CMakeLists.txt
    cmake -S . -B built >"$said/out" 2>&1 && cmake --build built >>"$said/out" 2>&1
    same "status of cmake: $(tail -n 5 "$said/out")" 0 $?
    same 'README, by CMake' "$program_says" "$(built/program)"
}

# The package config for CMake: the shared library, the archive, and the versions that it serves.
once_cmake_config() {
    if ! command -v cmake >"$said/out"; then
        echo 'command: no cmake here; its package config is not tried'
        return
    fi
    install_all
    local version
    version=$("$mahyrei" --version)
    version=${version#mahyrei }
    cat >CMakeLists.txt <<'end'
cmake_minimum_required(VERSION 3.13)
project(program C)
find_package(mahyrei ${ASKED} CONFIG REQUIRED)
foreach(kind mahyrei static)
  add_executable(${kind}_program program.c)
  target_link_libraries(${kind}_program PRIVATE mahyrei::${kind})
endforeach()
end
    cmake -S . -B built "-DCMAKE_PREFIX_PATH=$work/prefix" "-DASKED=$version" >"$said/out" 2>&1 &&
        cmake --build built >>"$said/out" 2>&1
    same "status of cmake: $(tail -n 5 "$said/out")" 0 $?
    same 'README, by the package config' "$program_says" "$(built/mahyrei_program)"
    same 'README, by the package config, with the archive' "$program_says" "$(built/static_program)"
    has 'what the first looks for' '[libmahyrei.so.4]' "$(readelf -d built/mahyrei_program)"
    same 'and the second' '' "$(readelf -d built/static_program | grep mahyrei)"
    local asked served=''
    for asked in 0.1 "${version%.*}" "${version%.*}.99" 1.0; do
        ! cmake -S . -B "built-$asked" "-DCMAKE_PREFIX_PATH=$work/prefix" "-DASKED=$asked" \
            >"$said/out" 2>&1 || served+=" $asked"
    done
    same 'the versions that it serves' " ${version%.*}" "$served"
}

once_python() {
    if ! command -v python3 >"$said/out"; then
        echo 'command: no python3 here; the installed module is not tried'
        return
    fi
    install_all
    awk '/^```python$/ { on = 1; next } /^```$/ { on = 0 } on' "$root/README.md" >example.py
    same 'README, in Python' "10 100 $(sentence 10)" \
        "$(PYTHONPATH=prefix/share/mahyrei/python python3 -B example.py)"
}

# The calls as the man page has them are those of the headers, and its example is C.
once_manual_of_calls() {
    begin
    local page=$root/host/man/mahyrei.3 name
    for name in $(declared) "${short[@]:21}"; do
        [[ $name == mahyrei_* ]] || name=mahyrei_$name
        same "$name in the man page" 'yes yes' "$(sed -n '/^.SH NAME/,/^.SH SYN/p' "$page" |
            grep -Eq "(^| )$name(,| )" && echo yes) $(grep -Eq "^.BI \".*[ *]$name\(" "$page" && echo yes)"
    done
    has 'the version of the man page' "\"$("$mahyrei" --version)\"" "$(head -n 1 "$page")"
    {
        echo '#include <err.h>'
        echo '#include <inttypes.h>'
        echo '#include <stdlib.h>'
        sed -n '/^.SH SYN/,/^.fi/ { s/^\.BI* //; /^\./d; s/[" ]/ /g; p }' "$page"
        echo 'int use(const uint8_t *marker, const uint8_t *slots, size_t slots_len) {'
        sed -n '/^.SH EXAMPLES/,/^.fi/ { /^\./d; p }' "$page"
        echo 'return frames[0]; }'
    } >page.c
    gcc -std=c11 -Wall -Wextra -Wno-unused-variable -Werror -I"$root/include" -fsyntax-only page.c \
        2>"$said/err"
    same "the man page as C: $(<"$said/err")" 0 $?
}
