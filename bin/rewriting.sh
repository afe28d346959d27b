# Has sqlite3 rewrite sets whose files are in a form that the program doesn't read, and converts what comes of it; for
# bin/converting.sh, which has run the program. The words are the sets and OUT.
#
# Each set becomes a plain file with its tiles and its metadata, value by value as SQLite reads them, in one read
# transaction. These files stand in a folder of their own beside OUT, which is gone in the end. What the program says of
# them is said of the user's files.
# shellcheck disable=SC2154
. "$here/explaining.sh"
test_sqlite3 "a set's file is in a form that isn't read directly; the command sqlite3 (package sqlite3) would rewrite it, and is missing"
sets=$(($# - 1))
room=$(mktemp -d "$folder/.mbtiles-to-pmtiles.XXXXXX") || {
    room=
    fail 6 "$folder can't be written"
}
fail_room() {
    fail 6 "$folder has no room for the sets that are rewritten, which need as much as their tiles have, or can't be written"
}

# copying FILE METADATA WIDE: the statements that copy what a set has. A cell stays as it is,
# since no column has a type.
copying() {
    cat <<SQL
.bail on
.timeout 5000
.mode list
.headers off
pragma journal_mode = off;
pragma synchronous = off;
attach '$(uri "$1")' as s;
create table main.tiles (zoom_level, tile_column, tile_row, tile_data);
create table main.metadata (name, value);
begin;
insert into main.tiles select zoom_level, tile_column, tile_row, tile_data from s.tiles;
SQL
    [ "$2" = 0 ] || echo 'insert into main.metadata select name, value from s.metadata;'
    cat <<SQL
select 'rows ' || ((select count(*) from main.tiles) = (select count(*) from s.tiles)) ||
    ' ' || (select count(*) from main.tiles where $3 and typeof(tile_data) = 'text');
commit;
SQL
}

# ask FILE SQL: an answer of SQLite on a set's file
ask() {
    (exec_sqlite3 "$(uri "$1")" '.timeout 5000' "$2") </dev/null 2>"$room/errors" || explain "$1" "$room/errors"
}

# run_sqlite3 FILE INPUT WORDS..: runs sqlite3 so that an interrupt ends it, and says why it failed on a set's file
run_sqlite3() {
    file=$1
    input=$2
    shift 2
    exec_sqlite3 "$@" <"$input" >"$room/answer" 2>"$room/errors" &
    rewriter=$!
    wait "$rewriter" || {
        rewriter=
        explain "$file" "$room/errors"
    }
    rewriter=
}

# rewrite FILE TO: a set's file as a plain one
rewrite() {
    encoding=$(ask "$1" 'pragma encoding')
    has=$(ask "$1" "select coalesce(max(lower(name) = 'tiles'), 0) || ' ' || coalesce(max(lower(name) = 'metadata'), 0) from sqlite_master where type in ('table', 'view')")
    [ "${has% *}" = 1 ] || fail 3 "$1 has no table or view named tiles"
    test_trees "$1" "$room/errors"
    # texts in UTF-16 go by way of a file in UTF-16; a tile that is a text has other bytes there
    first=$2
    wide=0
    if [ "$encoding" != UTF-8 ]; then
        first=$2.wide
        wide=1
    fi
    { [ $wide = 0 ] || echo "pragma encoding = '$encoding';" && copying "$1" "${has#* }" $wide; } >"$room/sql" || fail_room
    run_sqlite3 "$1" "$room/sql" "$first"
    case $(grep '^rows ' "$room/answer") in
    'rows 1 0') ;;
    'rows 1 '*) fail 1 "$1 has tiles that are texts in UTF-16, whose bytes aren't told; store them as blobs" ;;
    *) fail 1 "$1: not all of its rows came; try again" ;;
    esac
    [ $wide = 0 ] || narrow "$1" "$first" "$2"
}

# narrow FILE WIDE TO: the plain file with texts in UTF-8 of one that has them in UTF-16. The words of a command of
# sqlite3 end at blanks and have backslashes for other signs, so each byte of the path is spelled out.
narrow() {
    run_sqlite3 "$1" /dev/null "$2" ".clone \"$(printf '%s' "$3" | od -An -v -to1 | tr -d '\n' | tr ' ' '\\')\""
    counts="select (select count(*) from tiles), (select count(*) from metadata), (select count(*) from tiles where tile_data is null), (select coalesce(sum(length(tile_data)), 0) from tiles)"
    [ "$(ask "$2" "$counts")" = "$(ask "$3" "$counts")" ] || fail 1 "$1: not all of its rows came; try again"
    rm "$2"
}

# name_files SET.. OUT ROOM: puts the names of the user's files in the place of those that were rewritten,
# in what the program says
name_files() {
    LC_ALL=C awk 'BEGIN { n = ARGC - 1; for (i = 1; i <= n; i++) { name[i] = ARGV[i]; ARGV[i] = "" } }
        {
            for (i = 1; i < n - 1; i++) {
                from = name[n] "/" i ".mbtiles"
                done = ""
                while (at = index($0, from)) { done = done substr($0, 1, at - 1) name[i]; $0 = substr($0, at + length(from)) }
                $0 = done $0
            }
            print
            fflush()
        }' "$@" <"$room/said" >&2
}

number=0
for file; do
    number=$((number + 1))
    [ $number -le $sets ] || break
    say "$file is rewritten by sqlite3 first, to a plain file beside OUT"
    begin_step "rewriting $file"
    rewrite "$file" "$room/$number.mbtiles"
    end_step
done
shown=$1
mkfifo "$room/said" || fail_room
name_files "$@" "$room" &
namer=$!
shift $sets
number=$sets
while [ $number -gt 0 ]; do
    set -- "$room/$number.mbtiles" "$@"
    number=$((number - 1))
done
begin_step "converting $shown"
convert "$@" 2>"$room/said"
wait "$namer" || true
namer=
[ "$ended" != "$unread_form" ] || fail 1 "$shown isn't read, also as sqlite3 rewrites it; mbtiles-to-pmtiles --by-script may take it"
[ "$ended" != 0 ] || end_step
exit "$ended"
