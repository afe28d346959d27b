# What the scripts here share. Each of them has set `here`, its folder, and `tool`, its name, before it reads this file.
set -eu
# What the environment has under these names is none of ours: some are files that are removed at the end, or processes
# that are ended.
unset room work reader copier converter rewriter follower namer trying hashless

# A standard stream that is closed is opened the wrong way round, so that its use fails and no file that is
# opened later gets its number.
(exec 9<&0) 2>/dev/null || exec 0>/dev/null
(exec 9>&1) 2>/dev/null || exec 1</dev/null
(exec 9>&2) 2>/dev/null || exec 2>/dev/null

say() {
    printf '%s\n' "$tool: $*" >&2
}

# fail STATUS WORDS..: says why, and ends.
fail() {
    status=$1
    shift
    say "$@"
    exit "$status"
}

# print_help: the comment that a script begins with
print_help() {
    sed -n '2,/^[^#]/s/^# \{0,1\}//p' "$0"
}

# plain_path PATH: sets `plain` to a path that no command takes for an option or for a name of its own. What is printed
# would lose line feeds at its end.
plain_path() {
    case $1 in
    /*) plain=$1 ;;
    *) plain=./$1 ;;
    esac
}

# What runs a script of Python, whose path and words follow it: `python3 -IBc "$isolated" PATH WORDS..`. It imports from
# its own folder and from the system; not from folders that the environment names, from the folder at hand, or from the
# packages of the user.
# shellcheck disable=SC2034
isolated='import runpy, sys
sys.argv = sys.argv[1:]
sys.path.insert(0, sys.argv[0].rpartition("/")[0])
runpy.run_path(sys.argv[0], run_name="__main__")'

# leads_to_stream PATH: whether a path with a slash names an open file of a process, as /dev/stdout does, also through
# links
leads_to_stream() (
    path=$1
    left=40
    while [ $left -gt 0 ]; do
        left=$((left - 1))
        case $(readlink -f "${path%/*}/.") in /proc/*) return 0 ;; esac
        [ -L "$path" ] || return 1
        to=$(readlink "$path" && echo .)
        to=${to%??}
        case $to in
        /*) path=$to ;;
        *) path=${path%/*}/$to ;;
        esac
    done
    return 1
)

# is_set FILE: whether a file is a database of SQLite. A pipe isn't opened, which would wait for its writer.
is_set() {
    [ -f "$1" ] && [ "$(head -c 15 -- "$1" 2>/dev/null | tr -d '\0')" = 'SQLite format 3' ]
}

# refuse_place STATUS OUT: ends where OUT takes no archive. One in the place of a stream would take its name from all
# programs, while the stream gets nothing; a set is the last word where that of OUT was left out; and the file beside
# one without a name would be .new, which may be there.
refuse_place() {
    [ -n "$2" ] || fail "$1" 'the name of the archive is empty; give the name of a file'
    plain_path "$2"
    ! leads_to_stream "$plain" || fail "$1" "$2 is a stream; give the name of a file"
    ! is_set "$plain" || fail "$1" "$2 is a set, which no archive replaces; give another name, or remove it first"
}

# put_in_place NEW OUT SHOWN: puts a file that is whole and synced at OUT, where nothing may be. With `overwrite` it
# takes the place of a file that is there, and gets its mode, and its owner where that is allowed. NEW is removed by the
# caller. SHOWN is OUT as the user named it.
put_in_place() {
    if [ -n "$overwrite" ]; then
        if [ -f "$2" ]; then
            chown --reference="$2" "$1" 2>/dev/null || true
            chmod --reference="$2" "$1" 2>/dev/null || true
        fi
        mv -fT "$1" "$2"
    else
        ln -T "$1" "$2" 2>/dev/null || { [ ! -e "$2" ] && [ ! -L "$2" ] && mv -T "$1" "$2"; } || fail 1 "$3 came meanwhile, and stays as it is"
    fi || fail 6 "$3 can't be put in place"
    sync "$(dirname "$2")" || fail 6 "$3 is in its place, but its folder can't be synced to its disk"
}
