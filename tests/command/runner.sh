# What runs these tests: that it sees a check that fails and a test that breaks off, and runs what it
# was asked to.
# shellcheck shell=bash

# suite WORD...: the runner with two subjects of its own; what it prints is in $said/out
suite() {
    local status=0
    COMMAND=$top/bin/mahyrei SANITIZED=$top/bin/sanitized SLOTS_TOOL=$tool FAULTS=$faults RUNSHEET='' \
        suite/tests/command/run "$@" >"$said/out" 2>&1 || status=$?
    printf '%s\n' "$status" "$(out)"
}

once_runner() {
    begin
    mkdir -p suite/tests/command
    cp "$root/tests/command/run" "$root/tests/command/helpers" suite/tests/command
    cat >suite/tests/command/one.sh <<'END'
test_right() { same right 1 1; }
once_right_too() { same right 1 1; echo 'command: something is not tried'; }
END
    cat >suite/tests/command/two.sh <<'END'
once_wrong() { same wrong 1 2; }
END
    same 'the list' $'0\none/right\none/right_too\ntwo/wrong' "$(suite --list)"
    same 'a subject' "0
1..3
ok 1 - one/right (sanitized)
ok 2 - one/right (mahyrei)
ok 3 - one/right_too (mahyrei)
# command: something is not tried
# command: 3 checks passed" "$(suite one)"
    same 'the same in short' $'0\ncommand: something is not tried\ncommand: 3 checks passed' \
        "$(suite -q one)"
    same 'one test' $'0\n1..1\nok 1 - one/right_too (mahyrei)\n# command: something is not tried
# command: 1 checks passed' "$(suite one/right_too)"
    same 'a test that fails' "1
1..4
ok 1 - one/right (sanitized)
ok 2 - one/right (mahyrei)
ok 3 - one/right_too (mahyrei)
# command: something is not tried
not ok 4 - two/wrong (mahyrei)
#   wanted: 1
#   got:    2
# command: 4 checks, 1 failed; 4 of 4 tests ended" "$(suite | grep -v '# command: wrong (lines')"
    echo 'test_zero() { echo leaving; exit 0; }' >>suite/tests/command/one.sh
    same 'a test that breaks off' '1
1..5
ok 1 - one/right (sanitized)
not ok 2 - one broke off
# leaving
# command: 0 checks, 1 failed; 2 of 5 tests ended' "$(suite one)"
    has 'a subject that there is not' 'no such subject: three' "$(suite three)"
    has 'a test that there is not' 'no such test: one/three' "$(suite one/three)"
    if command -v prove >"$said/which"; then
        export COMMAND=$top/bin/mahyrei SANITIZED=$top/bin/sanitized SLOTS_TOOL=$tool FAULTS=$faults RUNSHEET=''
        has 'what prove makes of a failing test' 'Failed test:  1' \
            "$(prove suite/tests/command/run :: two 2>&1)"
        has 'and of one that passes' 'Result: PASS' \
            "$(prove suite/tests/command/run :: one/right 2>&1)"
        export -n COMMAND SANITIZED SLOTS_TOOL FAULTS
    else
        echo 'command: no prove(1) here; the output is not read by it'
    fi
}
