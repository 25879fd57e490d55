# What the tests with other people's programs share: Debian's packages that they need.
# shellcheck shell=bash

# needs TEST PACKAGE...: each is there, or is installed where the user is root. Where that cannot be,
# one line says what is missing, and the status is 1.
needs() {
    local test=$1 package missing=() log
    shift
    for package; do
        dpkg-query -W -f '${db:Status-Status}\n' "$package" 2>/dev/null | grep -qx installed ||
            missing+=("$package")
    done
    [ ${#missing[@]} -gt 0 ] || return 0
    if [ "$(id -u)" -ne 0 ] || ! command -v apt-get >/dev/null; then
        echo "$test: ${missing[*]} missing, and only root can install them, by apt-get; not tried"
        return 1
    fi
    echo "$test: installing ${missing[*]}"
    log=$(mktemp)
    export DEBIAN_FRONTEND=noninteractive
    if ! apt-get -qq install -y --no-install-recommends "${missing[@]}" >"$log" 2>&1 &&
        ! { apt-get -qq update &&
            apt-get -qq install -y --no-install-recommends "${missing[@]}"; } >"$log" 2>&1; then
        cat "$log"
        echo "$test: ${missing[*]} cannot be installed; not tried"
        rm -f "$log"
        return 1
    fi
    rm -f "$log"
}

# without_network COMMAND...: where the user may take the network away, without it
without_network() {
    if [ "$(id -u)" -eq 0 ] && unshare --net true 2>/dev/null; then
        unshare --net "$@"
    else
        "$@"
    fi
}
