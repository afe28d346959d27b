# The files of sets, for the scripts that read them.
# shellcheck disable=SC2154

# test_file FILE: a regular file that can be read, or the end
test_file() {
    case $1 in
    /dev/stdin | /dev/fd/* | /proc/self/fd/*) fail 4 "$1 is a stream, and sets are read from files; give the file's own name" ;;
    esac
    [ -e "$1" ] || fail 3 "there is no file $1"
    [ -f "$1" ] || fail 4 "$1 is no regular file"
    [ -r "$1" ] || fail 4 "$1 can't be read: permission denied"
}

# test_sources FILE.. OUT: tests all files but the last
test_sources() {
    while [ $# -gt 1 ]; do
        test_file "$1"
        shift
    done
}

# uri FILE: what SQLite opens a file by for reading alone. Each byte of the path is spelled out, so that
# none means something else.
uri() {
    case $1 in
    /*) printf 'file:' ;;
    *) printf 'file:%%2e%%2f' ;;
    esac
    printf '%s' "$1" | od -An -v -tx1 | tr -d ' \n' | sed 's/../%&/g'
    printf '?mode=ro'
}

# On a terminal each step is told, and how long it took.
begin_step() {
    begun=$(date +%s)
    [ ! -t 2 ] || say "$1"
}
end_step() {
    [ ! -t 2 ] || say "done in $(($(date +%s) - begun)) s"
}
