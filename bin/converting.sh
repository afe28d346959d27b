# Converts sets by the program, for bin/mbtiles-to-pmtiles, which has set the flags. The words are the sets and OUT.
# shellcheck disable=SC2154

eval "out=\${$#}"
shown_out=$out
plain_path "$out"
out=$plain
folder=${out%/*}
folder=${folder:-/}

# The file that the program writes beside OUT: which one it is, by the numbers of its file system and its own, while
# the program has it open.
written() {
    for open in "/proc/$converter/fd/"*; do
        [ "$open" -ef "$out.new" ] || continue
        stat -Lc %d:%i "$open" 2>/dev/null || true
        return 0
    done
}

# An interrupt ends the program, and removes the file that it was writing beside OUT; never one that it didn't make.
finish() {
    status=$?
    trap '' HUP INT QUIT TERM
    [ -z "${rewriter-}" ] || end_process "$rewriter"
    if [ -n "${converter-}" ]; then
        made=$(written)
        end_process "$converter"
        [ -z "$made" ] || [ "$(stat -c %d:%i "$out.new" 2>/dev/null)" != "$made" ] || rm -f "$out.new"
    fi
    [ -z "${follower-}" ] || end_process "$follower"
    [ -z "${namer-}" ] || wait "$namer" 2>/dev/null || true
    [ -z "${room-}" ] || rm -rf "$room"
    exit "$status"
}
end_process() {
    kill "$1" 2>/dev/null || true
    wait "$1" 2>/dev/null || true
}
trap finish EXIT
trap 'exit 129' HUP
trap 'exit 130' INT
trap 'exit 131' QUIT
trap 'exit 143' TERM

# bytes_of FILE: how many it has
bytes_of() {
    stat -Lc %s -- "$1" 2>/dev/null || echo 0
}

# bytes_to_read FILE.. OUT: how many bytes the program reads of sets. The base is read three times, page by page, the
# third time its part alone where one is asked for, and once more for the hash, which is also made where patches are
# put on a whole set. The file of a patch above the 8 MiB that the program keeps is read five times while it is opened,
# and once for its rows.
bytes_to_read() {
    times=3
    [ -z "$part" ] || times=2
    [ -z "$hash$verify" ] && { [ $# -le 2 ] || [ -n "$part" ]; } || times=$((times + 1))
    bytes=$((times * $(bytes_of "$1")))
    shift
    while [ $# -gt 1 ]; do
        size=$(bytes_of "$1")
        [ "$size" -le 8388608 ] || size=$((6 * size))
        bytes=$((bytes + size))
        shift
    done
    echo "$bytes"
}

# follow PROCESS BYTES: shows each second how much the program has read of so many bytes, and then how long OUT.new is.
# The cursor stays in front, so that the next line covers it.
follow() {
    while sleep 1 && kill -0 "$1" 2>/dev/null; do
        # a build before it shows by itself how far it is
        [ "$(cat "/proc/$1/comm" 2>/dev/null)" != sh ] || continue
        read=0
        while read -r key value; do [ "$key" != rchar: ] || read=$value; done 2>/dev/null <"/proc/$1/io" || return 0
        if [ "$read" -lt "$2" ]; then
            printf '%s: %s %% read\r' "$tool" $((100 * read / $2)) >&2
        else
            printf '%s: %s MB written\r' "$tool" $(($(stat -c %s "$out.new" 2>/dev/null || echo 0) / 1000000)) >&2
        fi
    done
}

# convert FILE..: runs the program, and sets `ended` to its status
convert() {
    expected=$(bytes_to_read "$@")
    set -- ${force:+--force} ${verify:+--verify} ${hash:+--hash} ${overwrite:+--overwrite} ${strict:+--strict} \
        ${part:+"$part" "$part_first" "$part_second"} ${part_third:+"$part_third"} -- "$@"
    # where it is installed the program stands beside this script
    if [ -x "$here/mbtiles_to_pmtiles_program" ]; then
        "$here/mbtiles_to_pmtiles_program" "$@" &
    else
        here=$here tool=$tool sh "$here/run.sh" "$@" &
    fi
    converter=$!
    follower=
    [ ! -t 2 ] || {
        follow "$converter" "$expected" &
        follower=$!
    }
    ended=0
    wait "$converter" || ended=$?
    converter=
    [ -z "$follower" ] || end_process "$follower"
    follower=
    # what the program can't be built for was said
    [ "$ended" != 70 ] || ended=1
}

convert "$@"
[ "$ended" = "$unread_form" ] || exit "$ended"
. "$here/rewriting.sh"
