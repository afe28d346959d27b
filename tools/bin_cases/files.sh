# Cases of tools/check_bin: files of sets that the converter reads by itself, made by hand. What SQLite and Python's
# sqlite3 read of them has to be in the archive, tile by tile.
# shellcheck disable=SC2034,SC2154

program=$here/crates/mbtiles_to_pmtiles_program/out/mbtiles_to_pmtiles_program
names='create table metadata (name text, value text)'
# made NAME TILES CONTENTS SQL: a file by SQL, and what comes of it
made() {
    fresh "$1"
    "$real" a.mbtiles "$4" >/dev/null
    run "$convert" a.mbtiles made.pmtiles
    whole "$2" "$3"
    ends
}

# What tools of the field make.
made 'a set as GDAL makes it' 3 2 "create table metadata (name text, value text);
    create table tiles (zoom_level integer not null, tile_column integer not null, tile_row integer not null, tile_data blob not null, unique (zoom_level, tile_column, tile_row)); $three"
made 'a set as tilemaker makes it' 3 2 "pragma page_size = 65536; create table metadata (name text, value text, unique (name)); create table tiles ($columns, unique (zoom_level, tile_column, tile_row)); $three"
made 'a set with an index that was made at the end' 3 2 "$names; create table tiles ($columns); $three; create unique index tile_index on tiles (zoom_level, tile_column, tile_row)"
made 'places and contents by numbers' 3 2 "$names; create table tiles_shallow (zoom_level integer, tile_column integer, tile_row integer, tile_data_id integer);
    create unique index p on tiles_shallow (zoom_level, tile_column, tile_row); create table tiles_data (tile_data_id integer primary key, tile_data blob);
    create view tiles as select zoom_level, tile_column, tile_row, tile_data from tiles_shallow join tiles_data on tiles_shallow.tile_data_id = tiles_data.tile_data_id;
    insert into tiles_data values (1, x'01'), (7, x'02'); insert into tiles_shallow values (0, 0, 0, 1), (1, 1, 0, 7), (1, 0, 1, 7)"

# Tables WITHOUT ROWID whose key is the place, as Planetiler makes them: of several levels, and with contents over
# several pages. They are read without sqlite3.
keyed() {
    fresh "$1"
    "$real" a.mbtiles "$4" >/dev/null
    echo 'echo "sqlite3 is run" >&2; exit 1' | instead sqlite3
    run env PATH="$t/path:$PATH" "$convert" a.mbtiles made.pmtiles
    rm -r "$t/path"
    whole "$2" "$3"
    ends
}
keys='primary key (zoom_level, tile_column, tile_row)) without rowid'
for size in 512 1024 4096 65536; do
    keyed "tiles without rowid in pages of $size bytes" 400 400 "pragma page_size = $size; $names; create table tiles ($columns, $keys;
        with recursive n(v) as (values (0) union all select v + 1 from n where v < 399) insert into tiles select 6, v % 64, v / 64, randomblob(20 + v * v / 4) from n"
    keyed "places without rowid in pages of $size bytes" 4000 7 "pragma page_size = $size; create table metadata (name text, value text); create unique index name on metadata (name);
        create table tiles_shallow (zoom_level integer, tile_column integer, tile_row integer, tile_data_id integer, $keys; create table tiles_data (tile_data_id integer primary key, tile_data blob);
        create view tiles as select tiles_shallow.zoom_level as zoom_level, tiles_shallow.tile_column as tile_column, tiles_shallow.tile_row as tile_row, tiles_data.tile_data as tile_data
            from tiles_shallow join tiles_data on tiles_shallow.tile_data_id = tiles_data.tile_data_id;
        with recursive n(v) as (values (0) union all select v + 1 from n where v < 6) insert into tiles_data select v, randomblob(10 + 300 * v) from n;
        with recursive n(v) as (values (0) union all select v + 1 from n where v < 3999) insert into tiles_shallow select 7, v % 128, v / 128, v % 7 from n"
done
keyed 'metadata without rowid, rows that were deleted' 200 200 "pragma page_size = 512; create table metadata (name text primary key, value text) without rowid; insert into metadata values ('name', 'kept');
    create table tiles (tile_data blob, tile_row integer, note text, tile_column integer, zoom_level integer, $keys;
    with recursive n(v) as (values (0) union all select v + 1 from n where v < 399) insert into tiles select randomblob(200 + v), v / 64, 'n', v % 64, 6 from n; delete from tiles where tile_column % 2 = 1"

# How a table may lie in a file. taken NAME SQL: a form that the program may not read by itself, and the command has
# rewritten then; a script takes it too
taken() {
    made "$1" 3 2 "$2"
    fresh "$1, by script"
    "$real" a.mbtiles "$2" >/dev/null
    run "$convert" --by-script a.mbtiles scripted.pmtiles
    status 0
    holds same scripted.pmtiles a.mbtiles
    ends
}
taken 'without rowid' "$names; create table tiles ($columns, primary key (zoom_level, tile_column, tile_row)) without rowid; $three"
taken 'without rowid, the key last' "$names; create table tiles (tile_data blob, tile_row integer, tile_column integer, zoom_level integer, primary key (tile_row, zoom_level, tile_column)) without rowid; $three"
made 'columns in another order' 3 2 "$names; create table tiles (tile_data blob, tile_row integer, tile_column integer, zoom_level integer); $three"
made 'further columns' 3 2 "create table metadata (id integer primary key, name text, note text, value text);
    create table tiles (id integer primary key, zoom_level integer, made text default 'now', tile_column integer, tile_row integer, tile_data blob, size integer default 5); $three"
taken 'a column that was added to rows' "$names; create table tiles ($columns); $three; alter table tiles add column note text default 'none'"
made 'a number that is the key of its row' 2 2 "$names; create table tiles (zoom_level integer, tile_column integer primary key, tile_row integer, tile_data blob); insert into tiles values (1, 0, 0, x'01'), (1, 1, 0, x'02')"
made 'names in capitals and quotes' 3 2 "create table METADATA (\"Name\" text, [Value] text); create table \"TILES\" (\"Zoom_Level\" integer, [Tile_Column] integer, \`Tile_Row\` integer, Tile_Data blob); $three"
made 'no rows' 0 0 "$names; create table tiles ($columns)"
made 'contents of no byte' 1 1 "$names; create table tiles ($columns); insert into tiles values (0, 0, 0, x'01'), (1, 0, 0, x''), (1, 1, 0, null)"
made 'numbers as texts' 3 2 "$names; create table tiles (zoom_level text, tile_column text, tile_row text, tile_data blob); $three"
made 'rows outside the grid' 3 2 "$names; create table tiles ($columns); $three; insert into tiles values (1, 2, 0, x'03'), (31, 0, 0, x'03'), (-1, 0, 0, x'03')"
made 'a row twice' 3 2 "$names; create table tiles ($columns); $three; insert into tiles values (0, 0, 0, x'01')"
for size in 512 1024 65536; do
    made "pages of $size bytes, contents over several of them" 400 400 "pragma page_size = $size; $names; create table tiles ($columns, unique (zoom_level, tile_column, tile_row));
        with recursive n(v) as (values (0) union all select v + 1 from n where v < 399) insert into tiles select 6, v % 64, v / 64, randomblob(20 + v * v / 4) from n"
done
made 'rows that were deleted, and a file that grew' 300 300 "pragma page_size = 512; $names; create table tiles ($columns);
    with recursive n(v) as (values (0) union all select v + 1 from n where v < 599) insert into tiles select 6, v % 64, v / 64, randomblob(200 + v) from n; delete from tiles where tile_column % 2 = 1; update tiles set tile_data = randomblob(900) where tile_row = 3"

fresh 'contents of a normalised set once'
"$real" a.mbtiles "$names; create table map (zoom_level integer, tile_column integer, tile_row integer, tile_id text); create table images (tile_data blob, tile_id text);
    create unique index m on map (zoom_level, tile_column, tile_row); create unique index i on images (tile_id);
    create view tiles as select zoom_level, tile_column, tile_row, tile_data from map join images on images.tile_id = map.tile_id;
    insert into images values (zeroblob(5000000), '$(head -c 5000000 /dev/zero | md5sum | cut -d' ' -f1)');
    with recursive n(v) as (values (0) union all select v + 1 from n where v < 99) insert into map select 6, v % 64, v / 64, (select tile_id from images) from n"
run "$convert" a.mbtiles made.pmtiles
whole 100 1
ends

# Files that are damaged: never is another set taken for the one that they had.
fresh 'pages that are damaged'
"$real" whole.mbtiles "pragma page_size = 512; $names; create table tiles ($columns, unique (zoom_level, tile_column, tile_row));
    with recursive n(v) as (values (0) union all select v + 1 from n where v < 99) insert into tiles select 6, v % 64, v / 64, randomblob(50 + 10 * v) from n"
pages=$(($(wc -c <whole.mbtiles) / 512))
for page in 0 1 2 3 4 5 6 7 8 9 $((pages / 3)) $((pages / 2)) $((pages - 1)); do
    for filling in zero urandom; do
        cp whole.mbtiles a.mbtiles
        dd if=/dev/$filling of=a.mbtiles bs=512 seek="$page" count=1 conv=notrunc 2>/dev/null
        rm -f made.pmtiles
        run timeout 60 "$convert" a.mbtiles made.pmtiles
        # a page of contents alone has no form that could be broken: then SQLite reads other bytes too
        whole_or_refused
    done
done
ends

fresh 'files that are cut off'
"$real" whole.mbtiles "pragma page_size = 512; $names; create table tiles ($columns); with recursive n(v) as (values (0) union all select v + 1 from n where v < 99) insert into tiles select 6, v % 64, v / 64, randomblob(50 + 10 * v) from n"
for size in 0 1 99 100 511 512 1024 20000; do
    head -c "$size" whole.mbtiles >a.mbtiles
    rm -f made.pmtiles
    run "$convert" a.mbtiles made.pmtiles
    holds eval '[ $got = 1 ] || [ $got = 3 ]'
    says 'a.mbtiles'
    holds [ ! -e made.pmtiles ]
    holds nothing_new
done
ends

fresh 'files that hold no set for the converter'
"$real" b.mbtiles 'create table t (a)'
run "$convert" b.mbtiles made.pmtiles
status 3
says 'b.mbtiles has no table or view named tiles'
mkdir folder
run "$convert" folder made.pmtiles
status 4
says 'folder is no regular file'
mkfifo pipe
run timeout 20 "$convert" pipe made.pmtiles
status 4
says 'pipe is no regular file'
run timeout 20 "$program" pipe made.pmtiles
status 4
says 'pipe is no regular file'
run "$program" none.mbtiles made.pmtiles
status 3
says 'no file none.mbtiles'
set_of c.mbtiles "insert into tiles values (0, 1, 0, x'01')"
run "$convert" c.mbtiles made.pmtiles
status 1
says 'c.mbtiles'
set_of d.mbtiles "insert into tiles values (0, 0, 0, x'01'), (0, 0, 0, x'02')"
run "$convert" d.mbtiles made.pmtiles
status 1
says 'd.mbtiles'
set_of a.mbtiles "$three"
run "$convert" a.mbtiles missing.mbtiles made.pmtiles
status 3
says 'no file missing.mbtiles'
holds [ ! -e made.pmtiles ]
holds nothing_new
ends

fresh 'all that a set says'
set_of a.mbtiles "$three; insert into metadata values ('format', 'image/PNG'), ('bounds', '-1.5,-2,3,4'), ('center', '1,2,1'), ('name', 'town'), ('minzoom', '7'), ('json', '{\"vector_layers\":[],\"a\":[1,2]}'), ('empty', '')"
run "$convert" a.mbtiles made.pmtiles
whole 3 2
holds same_has '3 0 1 2 1 {"a": [1, 2], "empty": "", "name": "town", "vector_layers": []}'
ends

fresh 'a set that is larger than the memory that there is'
set_of a.mbtiles "with recursive n(v) as (values (0) union all select v + 1 from n where v < 1999) insert into tiles select 6, v % 64, v / 64, randomblob(60000) from n"
run bash -c 'ulimit -v 81920; exec "$0" a.mbtiles made.pmtiles' "$here/crates/mbtiles_to_pmtiles_program/out/mbtiles_to_pmtiles_program"
status 0
prints '^tiles 2000, contents 2000$'
holds same made.pmtiles a.mbtiles
run bash -c 'ulimit -v 81920; exec "$0" --hash a.mbtiles hashed.pmtiles' "$here/crates/mbtiles_to_pmtiles_program/out/mbtiles_to_pmtiles_program"
status 0
prints '^aggregate [0-9A-F]\{32\}$'
holds cmp -s made.pmtiles hashed.pmtiles
# of a set with patches the patches alone are held
set_of b.mbtiles "$one; insert into tiles values (6, 3, 4, x'0203')"
set_of c.mbtiles "insert into tiles values (6, 3, 4, x'04'), (6, 9, 9, x'')"
run bash -c 'ulimit -v 81920; exec "$0" --force a.mbtiles b.mbtiles c.mbtiles patched.pmtiles' "$here/crates/mbtiles_to_pmtiles_program/out/mbtiles_to_pmtiles_program"
status 0
prints '^aggregate [0-9A-F]\{32\}$'
holds same patched.pmtiles a.mbtiles b.mbtiles c.mbtiles
ends
