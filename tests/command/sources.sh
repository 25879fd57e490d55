# How the command's own sources lie.
# shellcheck shell=bash

# Folders from the bottom up; docs/ARCHITECTURE.md has them in the same order.
layers=(formats system report files library runs pictures commands)

# A part includes its own folder and those below it, so that it can be read without those above.
once_include_direction() {
    local -A level
    local i name from to wrong=''
    for i in "${!layers[@]}"; do
        level[${layers[i]}]=$i
    done
    same 'folders with sources' "$(printf '%s\n' "${layers[@]}" | sort | xargs)" \
        "$(cd "$root/host" && find . -mindepth 2 -name '*.[ch]' -printf '%h\n' | sort -u |
            cut -c 3- | xargs)"
    while IFS=: read -r name _ to; do
        from=${name#"$root/host/"} from=${from%%/*} to=${to#*\"} to=${to%%/*}
        [ -n "${level[$to]-}" ] && [ "${level[$to]}" -le "${level[$from]}" ] ||
            wrong+=" $name:$to"
    done < <(grep -n '#include "[a-z]*/' "$root"/host/*/*.[ch])
    same 'includes from below upwards' '' "$wrong"
    for i in "${layers[@]}"; do
        # shellcheck disable=SC2016  # the document has it so
        has "ARCHITECTURE on host/$i" "\`$i\`" \
            "$(sed -n '/^- `host\/`/,/^- /p' "$root/docs/ARCHITECTURE.md")"
    done
}

# Within a folder too, no part includes one that includes it, by way of others or not.
once_no_circles() {
    local name part
    for name in "$root"/host/*/*.[ch]; do
        part=${name#"$root/host/"}
        sed -n "s|^#include \"\\([a-z]*/[a-z_0-9]*\\)\\.h\"\$|${part%.*} \\1|p" "$name"
    done | awk '$1 != $2' | sort -u >pairs
    same 'pairs of parts' yes "$([ "$(wc -l <pairs)" -gt 200 ] && echo yes)"
    tsort pairs >"$said/out" 2>"$said/err"
    same 'parts that include one another' '' "$(<"$said/err")"
}
