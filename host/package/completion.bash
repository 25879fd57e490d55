# Completion of mahyrei in bash. Subcommands and options are those of `mahyrei --help`.
_mahyrei() {
    local word=${COMP_WORDS[COMP_CWORD]} before=${COMP_WORDS[COMP_CWORD - 1]} help command='' i
    local operands=0 files=' --log --results --svg --html --annotations --output -o ' others=' --wait --jobs --pairs --slot-rate --from --marker --expect-sha256 '
    help=$("${COMP_WORDS[0]}" --help 2>/dev/null) || return
    for ((i = 1; i < COMP_CWORD; i++)); do
        if [[ ${COMP_WORDS[i]} != -* && $files$others != *" ${COMP_WORDS[i - 1]} "* ]]; then
            [[ -z $command ]] || operands=$((operands + 1))
            command=${command:-${COMP_WORDS[i]}}
        fi
    done
    COMPREPLY=()
    if [[ $word == -* ]]; then
        mapfile -t COMPREPLY < <(compgen -W "$(grep -Eo -- '^ +(-., )?--[a-z0-9-]+' <<<"$help" |
            grep -Eo -- '--[a-z0-9-]+')" -- "$word")
    elif [[ $files == *" $before "* ]]; then
        mapfile -t COMPREPLY < <(compgen -f -- "$word")
        compopt -o filenames 2>/dev/null
    elif [[ $others == *" $before "* ]]; then
        return
    elif [[ -z $command || $command$operands == help0 ]]; then
        mapfile -t COMPREPLY < <(compgen -W "$(sed -En 's/^  ([a-z][a-z-]*) +.*/\1/p' <<<"$help")" \
            -- "$word")
    elif [[ $command == header ]]; then
        mapfile -t COMPREPLY < <(compgen -W "rate=1/3 rate=1/2 rate=2/3 m= N= B= F= W= A= $(
            printf 'copies=%s ' 1 2 3 4 8 16 32)" -- "$word")
        compopt -o nospace 2>/dev/null
    elif [[ $command == @(pass-*|spread) && $operands -eq 0 ]]; then
        mapfile -t COMPREPLY < <(compgen -W '1/3 1/2 2/3' -- "$word")
    elif [[ $command$operands == rack-lend4 ]]; then
        mapfile -t COMPREPLY < <(compgen -W '0 1 2 3 none' -- "$word")
    elif [[ $command$operands == rack-*[123] ]]; then
        mapfile -t COMPREPLY < <(compgen -W '0 1 2 3' -- "$word")
    else
        mapfile -t COMPREPLY < <(compgen -f -- "$word")
        compopt -o filenames 2>/dev/null
    fi
}
complete -F _mahyrei mahyrei
