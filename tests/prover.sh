# shellcheck shell=bash
# What makes rt quick, for whoever sources this: TMPDIR in memory, where nobody chose another and there is
# room. `scratch` is then the folder to remove at the end, or empty. How many checks go on at a time rt
# chooses itself, by the processors and the memory that are free.
scratch=''

# For each edit the prover has a copy of what the crate's own check kept, thousands of small files, below
# TMPDIR. In memory that costs less, but what lies there is missing from the checks: only where both have
# plenty. `rt` runs the programs from there too, as nobody, so files there must be allowed to run.
enough=16000000 # KiB there, and twice as much free memory, of which that is a part
free=$(awk '/^MemAvailable:/ { print $2 }' /proc/meminfo 2>/dev/null)
if [ -z "${TMPDIR:-}" ] && [ "${free:-0}" -gt $((2 * enough)) ] &&
    [ "$(df -Pk /dev/shm 2>/dev/null | awk 'NR == 2 { print $4 }')0" -gt "${enough}0" ] &&
    scratch=$(mktemp -d /dev/shm/mahyrei.XXXXXX 2>/dev/null); then
    chmod 711 "$scratch"
    if cp /bin/true "$scratch/true" 2>/dev/null && "$scratch/true" 2>/dev/null; then
        export TMPDIR=$scratch
    fi
fi
