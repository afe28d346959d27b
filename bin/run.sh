# Runs the program of a tool. Where it isn't built yet, or is older than its sources, its crates are proved and built
# first, those that don't wait for each other side by side, and standard error shows how far that is. A start after
# an interrupt goes on with the crates that are left. mbtiles-to-pmtiles starts this as a command of its own, with
# `here` and `tool` handed on.
# shellcheck disable=SC2154
. "$here/crates.sh"
built=$out/$program

# as many provers as there are processors, and as free memory allows at 4 GB each
provers() {
    most=$(getconf _NPROCESSORS_ONLN 2>/dev/null || echo 1)
    room=$(awk '/^MemAvailable:/ { print int($2 / 4000000) }' "${FATYNGU_MEMINFO:-/proc/meminfo}" 2>/dev/null || true)
    [ "${room:-$most}" -ge "$most" ] || most=$room
    [ "$most" -ge 1 ] || most=1
    echo "$most"
}

# waits for one of the places of provers, and takes it
take_place() {
    while :; do
        for place in $(seq 1 "$places"); do
            mkdir "$marks/place.$place" 2>/dev/null && return 0
        done
        [ ! -e "$marks/failed" ] || return 1
        sleep 1
    done
}

# proves and builds one crate, once those below it are built
build() {
    name=$1
    number=$2
    for below in $(chain "$name"); do
        [ "$below" = "$name" ] && continue
        while [ ! -e "$marks/$below" ]; do
            [ -e "$marks/failed" ] && return 0
            sleep 1
        done
    done
    take_place || return 0
    say "$number of $total: $name, $(functions "$name") functions"
    from=$(date +%s)
    task=lib
    [ "$name" = "$program" ] && task='run -- --version'
    # shellcheck disable=SC2086
    if (cd "$top/crates/$name" && rt $task) </dev/null >"$marks/$name.log" 2>&1; then
        say "$number of $total: $name is proved and built, $(($(date +%s) - from)) s"
        : >"$marks/$name"
    else
        : >"$marks/failed"
        say "$name is not proved"
        grep -v ': proved$' "$marks/$name.log" >&2
    fi
    rmdir "$marks/place.$place"
}

# the processes below one, but for those that list them
below() {
    ps -o pid=,comm= --ppid "$1" 2>/dev/null | while read -r child name; do
        [ "$name" != ps ] || continue
        echo "$child"
        below "$child"
    done
}

# Ends what was started: background commands of a script don't hear an interrupt by themselves. All are stopped first,
# so that none starts another meanwhile.
stop() {
    trap '' INT TERM HUP
    say 'stopped; the next start goes on with what is left'
    exec 2>/dev/null
    : >"$marks/failed"
    for _ in 1 2 3; do
        below $$ >"$marks/below"
        xargs kill -STOP <"$marks/below" || true
    done
    xargs kill <"$marks/below" || true
    xargs kill -CONT <"$marks/below" || true
    rm -rf "$marks"
    exit "$1"
}

build_all() {
    marks=$(mktemp -d)
    trap 'stop 129' HUP
    trap 'stop 130' INT
    trap 'stop 143' TERM
    places=$(provers)
    total=$(chain "$program" | wc -l)
    start=$(date +%s)
    sum=0
    for name in $(chain "$program"); do
        sum=$((sum + $(functions "$name")))
    done
    # 3.6 seconds of a processor for a function, of which two work all the time
    [ "$places" -ge 2 ] && minutes=$((sum * 18 / 600 + 1)) || minutes=$((sum * 36 / 600 + 1))
    say "proving and building $total crates, $places at once, about $minutes minutes; bin/$tool-unproved is a quick look without proofs, which takes some 3 s for any set and 7 s for each MB"
    number=0
    for name in $(chain "$program"); do
        number=$((number + 1))
        build "$name" "$number" &
    done
    wait
    trap - INT TERM HUP
    if [ -e "$marks/failed" ]; then
        rm -rf "$marks"
        exit 70
    fi
    rm -rf "$marks"
    touch "$built"
    say "done in $((($(date +%s) - start) / 60)) min $((($(date +%s) - start) % 60)) s"
}

answer_text "$@"
if ! is_fresh "$built"; then
    test_build
    build_all
fi
if [ -t 2 ] && [ "${1-} ${2-}" = 'convert file' ]; then
    say "converting into ${3-}"
fi
exec "$built" "$@"
