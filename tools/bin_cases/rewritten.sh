# Cases of tools/check_bin: files in forms that the program doesn't read by itself, which sqlite3 rewrites first, or
# that are refused in words.
# shellcheck disable=SC2034,SC2154

names="create table metadata (name text, value text); insert into metadata values ('format', 'png'), ('name', 'a set'), ('bounds', '-1,-2,3,4')"
nothing_left() { [ -z "$(find . -name '*.new' -o -name '.mbtiles-to-*')" ]; }

# read_all_the_same NAME SQL: a set of three tiles that is converted, whatever its form
read_all_the_same() {
    fresh "$1"
    echo "$2;" | "$real" a.mbtiles >/dev/null 2>err || problem="$problem; $(cat err)"
    before=$(cksum a.mbtiles)
    run "$convert" a.mbtiles made.pmtiles
    status 0
    prints '^tiles 3, contents 2$'
    holds same made.pmtiles a.mbtiles
    holds same_has '3 0 1 2 1 {"name": "a set"}'
    holds nothing_left
    holds [ "$(cksum a.mbtiles)" = "$before" ]
    ends
}
shallow="create table tiles_shallow (zoom_level integer, tile_column integer, tile_row integer, tile_data_id integer, primary key (zoom_level, tile_column, tile_row)) without rowid;
    create table tiles_data (tile_data_id integer primary key, tile_data blob);
    create view tiles as select tiles_shallow.zoom_level as zoom_level, tiles_shallow.tile_column as tile_column, tiles_shallow.tile_row as tile_row, tiles_data.tile_data as tile_data
        from tiles_shallow join tiles_data on tiles_shallow.tile_data_id = tiles_data.tile_data_id;
    insert into tiles_data values (1, x'01'), (2, x'02'); insert into tiles_shallow values (0, 0, 0, 1), (1, 1, 0, 2), (1, 0, 1, 2)"
read_all_the_same 'tiles without rowid' "$names; create table tiles ($columns, primary key (zoom_level, tile_column, tile_row)) without rowid; $three"
read_all_the_same 'places without rowid' "$names; $shallow"
read_all_the_same 'tiles without rowid in another order' "$names; create table tiles ($columns, primary key (tile_row, tile_column, zoom_level)) without rowid; $three"
read_all_the_same 'tiles without rowid, a key that falls' "$names; create table tiles ($columns, primary key (zoom_level desc, tile_column, tile_row)) without rowid; $three"
read_all_the_same 'metadata without rowid' "create table metadata (name text primary key, value text) without rowid; insert into metadata values ('format', 'png'), ('name', 'a set');
    create table tiles ($columns); $three"
for vacuum in 1 2; do
    read_all_the_same "auto_vacuum $vacuum" "pragma auto_vacuum = $vacuum; $names; create table tiles ($columns); $three"
done
for encoding in UTF-16le UTF-16be; do
    read_all_the_same "texts in $encoding" "pragma encoding = '$encoding'; $names; create table tiles ($columns); $three"
    read_all_the_same "texts in $encoding, a table without rowid" "pragma encoding = '$encoding'; $names; create table tiles ($columns, primary key (zoom_level, tile_column, tile_row)) without rowid; $three"
done
read_all_the_same 'bytes of pages that are reserved' ".filectrl reserve_bytes 8
$names; create table tiles ($columns); $three"
read_all_the_same 'a column that was added' "$names; create table tiles ($columns); $three; alter table tiles add column note text default 'none'"
read_all_the_same 'a column of contents that was added' "$names; create table tiles (zoom_level integer, tile_column integer, tile_row integer); insert into tiles values (0, 0, 0), (1, 1, 0);
    alter table tiles add column tile_data blob default x'02'; update tiles set tile_data = x'01' where zoom_level = 0; insert into tiles values (1, 0, 1, x'02')"
read_all_the_same 'an rtree beside' "$names; create table tiles ($columns); $three; create virtual table places using rtree (id, a, b)"
read_all_the_same 'a table of texts beside' "$names; create table tiles ($columns); $three; create virtual table texts using fts5 (body); insert into texts values ('x')"
read_all_the_same 'references with match full' "$names; create table zooms (z integer primary key); create table tiles (zoom_level integer references zooms (z) match full, tile_column integer, tile_row integer, tile_data blob); $three"
read_all_the_same 'a trigger on tiles' "$names; create table tiles ($columns); $three; create table changes (n); create trigger t after insert on tiles begin insert into changes values (1); end"
read_all_the_same 'a partial index' "$names; create table tiles ($columns); $three; create index p on tiles (zoom_level) where zoom_level > 0"
read_all_the_same 'an index of an expression' "$names; create table tiles ($columns); $three; create index p on tiles (zoom_level + 1)"
read_all_the_same 'a generated column' "$names; create table tiles (zoom_level integer, tile_column integer, tile_row integer, raw blob, tile_data blob generated always as (raw) virtual);
    insert into tiles (zoom_level, tile_column, tile_row, raw) values (0, 0, 0, x'01'), (1, 1, 0, x'02'), (1, 0, 1, x'02')"
read_all_the_same 'a strict table' "$names; create table tiles ($columns) strict; $three"

fresh 'a folder whose name has blanks and other signs'
"$real" a.mbtiles "pragma encoding = 'UTF-16'; $names; create table tiles ($columns); $three"
for folder in 'my folder' "it's" 'quo"te' 'back\slash' 'octal\101' '
lines
' 'é %41?#'; do
    mkdir "$folder"
    run "$convert" a.mbtiles "$folder/made.pmtiles"
    status 0
    holds same "$folder/made.pmtiles" a.mbtiles
    holds [ "$(ls -A "$folder")" = made.pmtiles ]
done
holds nothing_left
ends

# a form that the program answers 10 on, whatever it reads by itself: a program that does so for one file first
fresh 'what is said of a set that is rewritten, and its end'
set_of a.mbtiles "$one"
cp -r "$bin" bin
cat >bin/mbtiles_to_pmtiles_program <<'PROGRAM'
#!/bin/bash
for word; do case $word in *.mbtiles) set=$word; break ;; esac; done
case $set in
*/.mbtiles-to-pmtiles.*) ;;
*) exit 10 ;;
esac
[ -z "$SAYS" ] || { echo "mbtiles-to-pmtiles: $set is refused: $SAYS" >&2; exit 1; }
[ -z "$SLEEPS" ] || { for out; do :; done; exec 9>"$out.new"; exec sleep 20; }
exec "$PROGRAM" "$@"
PROGRAM
chmod +x bin/mbtiles_to_pmtiles_program
export PROGRAM=$here/crates/mbtiles_to_pmtiles_program/out/mbtiles_to_pmtiles_program SAYS= SLEEPS=
run bin/mbtiles-to-pmtiles a.mbtiles made.pmtiles
status 0
holds [ "$(cat err)" = "mbtiles-to-pmtiles: a.mbtiles is rewritten by sqlite3 first, to a plain file beside OUT" ]
holds same made.pmtiles a.mbtiles
holds nothing_left
SAYS='it has no sense' run bin/mbtiles-to-pmtiles --overwrite a.mbtiles made.pmtiles
status 1
says 'mbtiles-to-pmtiles: a.mbtiles is refused: it has no sense'
holds nothing_left
mkdir path
for word in sh dirname readlink sed awk od tr mktemp rm mkfifo date stat id cat grep sleep bash; do ln -s "$(command -v $word)" path/$word; done
run env PATH="$t/path" bin/mbtiles-to-pmtiles --overwrite a.mbtiles made.pmtiles
status 1
says 'the command sqlite3 (package sqlite3) would rewrite it, and is missing'
holds same made.pmtiles a.mbtiles
rm -r path
export SLEEPS=1
ends_by_signals bin/mbtiles-to-pmtiles a.mbtiles to/made.pmtiles
unset SLEEPS
# sqlite3 that doesn't end, one that loses a row, and one that finds no room
echo 'case "$*" in *:memory:* | *file:*) exec "$real" "$@" ;; esac; sleep 20' | instead sqlite3
mkdir to
ended TERM : PATH="$t/path:$PATH" bin/mbtiles-to-pmtiles a.mbtiles to/made.pmtiles
status 143
holds nothing_in to
echo 'case "$*" in *file:*) exec "$real" "$@" ;; esac; sed "s/from s.tiles;/from s.tiles limit 0;/" | "$real" "$@"' | instead sqlite3
run env PATH="$t/path:$PATH" bin/mbtiles-to-pmtiles a.mbtiles to/made.pmtiles
status 1
says 'a.mbtiles: not all of its rows came'
holds nothing_in to
ends

fresh 'a base and patches in several forms'
"$real" a.mbtiles "create table metadata (name text primary key, value text) without rowid; insert into metadata values ('name', 'base'), ('legend', 'l'); create table tiles ($columns, primary key (zoom_level, tile_column, tile_row)) without rowid; $three"
"$real" b.mbtiles "pragma encoding = 'UTF-16'; create table metadata (name text, value text); insert into metadata values ('name', 'né'); create table tiles ($columns); insert into tiles values (1, 1, 0, null), (2, 0, 0, x'07')"
run "$convert" a.mbtiles b.mbtiles made.pmtiles
status 1
says 'b.mbtiles is refused: .*--force'
holds [ ! -e made.pmtiles ]
run "$convert" a.mbtiles b.mbtiles --force made.pmtiles
status 0
holds same made.pmtiles a.mbtiles b.mbtiles
holds same_has '{"legend": "l", "name": "n\u00e9"}'
holds nothing_left
ends

fresh 'sets of such forms that can not be read'
"$real" a.mbtiles "$names; create table tiles ($columns, primary key (tile_row, tile_column, zoom_level)) without rowid; $three"
(echo 'begin exclusive; update tiles set tile_data = zeroblob(900000);'; sleep 12) | "$real" a.mbtiles &
sleep 2
run "$convert" a.mbtiles made.pmtiles
status 1
says 'a.mbtiles'
holds [ ! -e made.pmtiles ]
holds nothing_left
kill %% 2>/dev/null
wait
"$real" b.mbtiles "create table t (a); create table metadata (name text primary key, value text) without rowid"
run "$convert" b.mbtiles made.pmtiles
status 3
says 'b.mbtiles has no table or view named tiles'
"$real" c.mbtiles "pragma encoding = 'UTF-16'; $names; create table tiles (zoom_level, tile_column, tile_row, tile_data); insert into tiles values (0, 0, 0, 'text')"
run "$convert" c.mbtiles made.pmtiles
holds [ "$got" != 0 ]
says 'c.mbtiles'
holds [ ! -e made.pmtiles ]
holds nothing_left
ends

# is_damaged WORDS: a file that is refused in these words both ways
is_damaged() {
    for way in '' --by-script; do
        # shellcheck disable=SC2086
        run "$convert" $way a.mbtiles made.pmtiles
        status 1
        says "$1"
        holds [ ! -e made.pmtiles ]
        holds nothing_left
    done
}
# SQLite looks contents up by the index, and gives 40 rows of the 64.
# lacking INDEX [COLUMNS]: the statements of such a set, but for its metadata and the last one
lacking() {
    echo "create table map (zoom_level integer, tile_column integer, tile_row integer, tile_id integer); create table images (tile_id integer, tile_data blob);
        with recursive n(v) as (values (0) union all select v + 1 from n where v < 63) insert into images select v, cast('c' || v as blob) from n;
        insert into map select 3, tile_id % 8, tile_id / 8, tile_id from images;
        create index $1 on images (${2-tile_id}) where tile_id < 40;
        create view tiles as select zoom_level, tile_column, tile_row, tile_data from map join images on map.tile_id = images.tile_id"
}
told="pragma writable_schema = on; update sqlite_schema set sql = replace(sql, ' where tile_id < 40', '') where type = 'index'"
gives_40() { holds [ "$("$real" a.mbtiles 'select count(*) from tiles; select count(*) from map')" = "$(printf '40\n64')" ]; }
for form in '' 'pragma auto_vacuum = full;' "pragma encoding = 'UTF-16';"; do
    fresh "an index that lacks rows${form:+, $form}"
    "$real" a.mbtiles "$form $names; $(lacking i); $told"
    gives_40
    is_damaged 'a.mbtiles is damaged: .* missing from index \|a.mbtiles has its texts in UTF-16'
    ends
done
for index in 'i never used' 'the freelist' 'a value in b' 'NULL value in i' '*** in database main ***' 'i
ok'; do
    fresh "an index that lacks rows, with the name $index"
    "$real" a.mbtiles "$names; $(lacking "\"$index\""); $told"
    gives_40
    is_damaged 'a.mbtiles is damaged: .* missing from index '
    ends
done
# nulls COUNT TABLE: so many rows that aren't as their column says, once that is told of the table
nulls() { echo "create table $2 (v); with recursive n(k) as (values (1) union all select k + 1 from n where k < $1) insert into $2 select null from n"; }
told_not_null="update sqlite_schema set sql = replace(sql, '(v)', '(v not null)') where name like 'nulls%'"
fresh 'an index that lacks rows among many faults that are no damage'
"$real" a.mbtiles "$names; $(nulls 10001 nulls); $(lacking i); $(nulls 10001 nulls_again); $told; $told_not_null"
gives_40
is_damaged 'a.mbtiles is damaged: .* missing from index i'
ends
fresh 'values that do not fit their columns'
"$real" a.mbtiles "$names; create table tiles ($columns, primary key (tile_row, tile_column, zoom_level)) without rowid; $three; $(nulls 10001 nulls); pragma writable_schema = on; $told_not_null"
for way in '' --by-script; do
    # shellcheck disable=SC2086
    run "$convert" --overwrite $way a.mbtiles made.pmtiles
    status 0
    holds same made.pmtiles a.mbtiles
done
"$real" a.mbtiles "$(nulls 1000000 nulls_again); pragma writable_schema = on; $told_not_null"
run "$bin/mbtiles-script" a.mbtiles
status 1
says 'a.mbtiles is damaged: it has 1000000 faults or more'
ends

if command -v python3 >/dev/null; then
    fresh 'an index by a function that sqlite3 does not have'
    python3 - <<'PYTHON'
import sqlite3
base = sqlite3.connect('a.mbtiles')
base.create_function('odd', 1, lambda given: given, deterministic=True)
base.executescript("""create table metadata (name text, value text); create table tiles (zoom_level integer, tile_column integer, tile_row integer, tile_data blob);
    insert into tiles values (0, 0, 0, x'01'); create table beside (a); create index i on beside (odd(a)); insert into beside values (1)""")
PYTHON
    run "$convert" --by-script a.mbtiles made.pmtiles
    status 0
    holds same made.pmtiles a.mbtiles
    ends
    # an index of the tiles that isn't compared, and one beside it, by which no other is compared
    for sql in "$(lacking i 'tile_id, odd(1)')" "$(lacking i); create table beside (a); create index j on beside (odd(a)); insert into beside values (1)"; do
        fresh 'an index that lacks rows, and a function that sqlite3 does not have'
        python3 - "$names; $sql; $told" <<'PYTHON'
import sqlite3
import sys
base = sqlite3.connect('a.mbtiles', isolation_level=None)
base.create_function('odd', 1, lambda given: given, deterministic=True)
base.executescript(sys.argv[1])
PYTHON
        gives_40
        is_damaged "a.mbtiles isn't read: unknown function: odd()"
        ends
    done
    # SQLite gives 199 rows of the 200, and says nothing
    # one_less MORE: such a file, with more before it is damaged
    one_less() {
        "$real" a.mbtiles "pragma page_size = 512; $names; create table tiles ($columns, primary key (zoom_level, tile_column, tile_row)) without rowid;
            with recursive n(k) as (select 0 union all select k + 1 from n where k < 199) insert into tiles select 8, k, k % 7, zeroblob(k % 90 + 1) from n; $1"
        python3 -c 'data = bytearray(open("a.mbtiles", "rb").read())
at = next(at for at in range(512, len(data), 512) if data[at] == 10 and data[at + 4] > 2)
data[at + 4] -= 1
open("a.mbtiles", "wb").write(data)'
        holds [ "$("$real" a.mbtiles 'select count(*) from tiles')" = 199 ]
    }
    fresh 'a table whose page says one row less'
    one_less ''
    is_damaged 'a.mbtiles is damaged: '
    ends
    # SQLite looks through free pages first
    fresh 'a table whose page says one row less, and more than 10,000 faults of free pages'
    one_less 'create table gone (v); with recursive n(k) as (select 0 union all select k + 1 from n where k < 11999) insert into gone select zeroblob(450) from n; drop table gone'
    python3 -c 'data = bytearray(open("a.mbtiles", "rb").read())
whole = lambda at: int.from_bytes(data[at:at + 4], "big")
trunk = whole(32)
while trunk:
    at = 512 * (trunk - 1)
    data[at + 8:at + 8 + 4 * whole(at + 4)] = b"\xff" * (4 * whole(at + 4))
    trunk = whole(at)
open("a.mbtiles", "wb").write(data)'
    is_damaged 'a.mbtiles is damaged: '
    ends
fi
