# Cases of tools/check_bin: tables whose names mislead, schemas that would run commands, rows without a place, and files
# beside that a reader may miss. Each set is converted as SQLite reads its `tiles`, or refused in words.
# shellcheck disable=SC2034,SC2154

program=$here/crates/mbtiles_to_pmtiles_program/out/mbtiles_to_pmtiles_program
names='create table metadata (name text, value text)'
hashes="create table tiles_with_hash ($columns, tile_hash text)"
normal="create table map (zoom_level integer, tile_column integer, tile_row integer, tile_id text); create table images (tile_id text, tile_data blob);
    create unique index m on map (zoom_level, tile_column, tile_row); create unique index i on images (tile_id)"
shallow="create table tiles_shallow (zoom_level integer, tile_column integer, tile_row integer, tile_data_id integer); create table tiles_data (tile_data_id integer primary key, tile_data blob)"

# right_or_refused: what a run came to
right_or_refused() {
    case $got in
    0) holds same made.pmtiles a.mbtiles ;;
    1 | 3 | 4) holds [ ! -e made.pmtiles ] && says "${1:-a.mbtiles}" ;;
    *) problem="$problem; status $got: $(tail -n 1 err)" ;;
    esac
    rm -f made.pmtiles
}
# misleads NAME SQL: a set that is converted both ways, where a script always takes it
misleads() {
    fresh "$1"
    "$real" a.mbtiles "$names; $2" >/dev/null
    run "$convert" a.mbtiles made.pmtiles
    right_or_refused
    run "$program" a.mbtiles made.pmtiles
    case $got in 10) ;; *) right_or_refused ;; esac
    run "$convert" --by-script a.mbtiles made.pmtiles
    status 0
    right_or_refused
    # rows of other tables are those of `tiles`, or not taken for them
    run "$convert" --by-script --verify a.mbtiles made.pmtiles
    right_or_refused
    ends
}
# must NAME SQL: a set that has to be converted
must() {
    misleads "$1" "$2"
    fresh "$1, converted"
    "$real" a.mbtiles "$names; $2" >/dev/null
    run "$convert" a.mbtiles made.pmtiles
    status 0
    holds same made.pmtiles a.mbtiles
    ends
}
must 'a table of tiles beside an empty one with hashes' "create table tiles ($columns); $three; $hashes"
must 'a table of tiles beside empty map and images' "create table tiles ($columns); $three; $normal"
must 'a table of tiles beside empty places and contents' "create table tiles ($columns); $three; $shallow"
must 'a table of tiles beside map and images of one row' "create table tiles ($columns); $three; $normal; insert into images values ('$(md5_of '\x09')', x'09'); insert into map values (0, 0, 0, '$(md5_of '\x09')')"
must 'a table of tiles beside one with hashes of one row' "create table tiles ($columns); $three; $hashes; insert into tiles_with_hash values (0, 0, 0, x'09', '$(md5_of '\x09')')"
misleads 'a view of another table beside empty map and images' "create table my_tiles ($columns); create view tiles as select * from my_tiles; $normal;
    insert into my_tiles values (0, 0, 0, x'01'), (1, 1, 0, x'02'), (1, 0, 1, x'02')"
misleads 'a view of another table beside an empty one with hashes' "create table my_tiles ($columns); create view tiles as select * from my_tiles; $hashes; insert into my_tiles values (0, 0, 0, x'01')"
some="insert into images values ('$(md5_of '\x01')', x'01'), ('$(md5_of '\x02')', x'02'); insert into map values (0, 0, 0, '$(md5_of '\x01')'), (1, 1, 0, '$(md5_of '\x02')'), (3, 1, 2, '$(md5_of '\x02')'), (4, 1, 2, '$(md5_of '\x01')')"
misleads 'a view of the zooms below 3' "$normal; $some; create view tiles as select zoom_level, tile_column, tile_row, tile_data from map join images on map.tile_id = images.tile_id where zoom_level < 3"
misleads 'a view that turns rows over' "$normal; $some; create view tiles as select zoom_level, tile_column, (1 << zoom_level) - 1 - tile_row as tile_row, tile_data from map join images on map.tile_id = images.tile_id"
misleads 'a view that swaps rows and columns' "$normal; $some; create view tiles as select zoom_level, tile_row as tile_column, tile_column as tile_row, tile_data from map join images on map.tile_id = images.tile_id"
misleads 'a view of a table with hashes that leaves rows out' "$hashes; insert into tiles_with_hash values (0, 0, 0, x'01', '$(md5_of '\x01')'), (1, 0, 0, x'02', '$(md5_of '\x02')');
    create view tiles as select zoom_level, tile_column, tile_row, tile_data from tiles_with_hash where zoom_level = 0"
misleads 'a view of places and contents that leaves rows out' "$shallow; insert into tiles_data values (1, x'01'); insert into tiles_shallow values (0, 0, 0, 1), (1, 0, 0, 1), (2, 0, 0, 1);
    create view tiles as select zoom_level, tile_column, tile_row, tile_data from tiles_shallow join tiles_data on tiles_shallow.tile_data_id = tiles_data.tile_data_id limit 2"
misleads 'a view with contents of its own' "$normal; $some; create view tiles as select zoom_level, tile_column, tile_row, x'07' as tile_data from map"
misleads 'a view of two tables' "create table a ($columns); create table b ($columns); insert into a values (0, 0, 0, x'01'); insert into b values (1, 0, 0, x'02'); create view tiles as select * from a union all select * from b"

# What the schema of a set calls runs no command, reads no file and writes none.
# runs_nothing NAME SQL WORDS: a set that is refused in these words where sqlite3 reads it
runs_nothing() {
    fresh "$1"
    "$real" a.mbtiles "$2" >/dev/null 2>&1
    rm -f owned
    for words in "$convert a.mbtiles made.pmtiles" "$convert --by-script a.mbtiles made.pmtiles" \
        "$convert --by-script --verify a.mbtiles made.pmtiles" "$bin/mbtiles-script a.mbtiles"; do
        # shellcheck disable=SC2086
        run $words
        status 1
        says "a.mbtiles .*$3"
        holds [ ! -e made.pmtiles ]
    done
    if command -v python3 >/dev/null; then
        run "$fatyngu" show --map a.mbtiles
        status 1
        says 'a.mbtiles'
    fi
    holds [ "$(ls -A)" = "$(printf '%s\n' a.mbtiles err out)" ]
    ends
}
calls() { echo "create table rows ($columns); insert into rows values (0, 0, 0, x'01'); create view tiles as select zoom_level, tile_column, tile_row, $1 as tile_data from rows"; }
runs_nothing 'a view of tiles that runs a command' "$names; $(calls "edit('x', 'touch owned #')")" 'refused: its schema makes unsafe use of edit'
runs_nothing 'a view of tiles that runs a command, in UTF-16' "pragma encoding = 'UTF-16'; $names; $(calls "edit('x', 'touch owned #')")" 'unsafe use of edit\|UTF-16'
runs_nothing 'a view of tiles that writes a file' "$names; $(calls "writefile('owned', 'x')")" 'unsafe use of writefile'
runs_nothing 'a view of tiles that reads a file' "$names; $(calls "readfile('a.mbtiles')")" 'unsafe use of readfile'
runs_nothing 'a view of tiles that loads a library' "$names; $(calls "load_extension('owned')")" 'unsafe use of load_extension'
runs_nothing 'a view of tiles that takes a tokenizer' "$names; $(calls "fts3_tokenizer('simple')")" 'unsafe use of fts3_tokenizer'
runs_nothing 'a view of tiles that lists files' "$names; create view tiles as select 0 as zoom_level, 0 as tile_column, 0 as tile_row, name as tile_data from fsdir('.')" 'unsafe use of'
fresh 'a view of metadata that runs a command'
"$real" a.mbtiles "create table tiles ($columns); $three; create view metadata as select 'name' as name, edit('x', 'touch owned #') as value"
for way in '' --by-script; do
    # shellcheck disable=SC2086
    run "$convert" $way a.mbtiles made.pmtiles
    right_or_refused
done
run "$bin/mbtiles-script" a.mbtiles
status 1
says 'a.mbtiles is refused: its schema makes unsafe use of edit'
holds [ ! -e owned ]
ends
for call in "edit('x', 'touch owned #')" "writefile('owned', 'x')"; do
    fresh "a constraint that calls $call"
    "$real" a.mbtiles "$names; create table rows ($columns, check ($call is not null)); pragma ignore_check_constraints = on;
        insert into rows values (0, 0, 0, x'01'), (1, 0, 0, x'02'); create view tiles as select * from rows where zoom_level >= 0"
    for way in '' --by-script; do
        # shellcheck disable=SC2086
        run "$convert" --overwrite $way a.mbtiles made.pmtiles
        status 0
        holds same made.pmtiles a.mbtiles
    done
    holds [ ! -e owned ]
    ends
done
# one that doesn't know the pragma goes on without a word
fresh 'a command sqlite3 that is too old'
"$real" a.mbtiles "$names; $(calls "edit('x', 'touch owned #')")"
echo 'exec "$real" "${@//trusted_schema/trusted_scheme}"' | instead sqlite3
for words in "$convert a.mbtiles made.pmtiles" "$convert --by-script a.mbtiles made.pmtiles" "$bin/mbtiles-script a.mbtiles"; do
    # shellcheck disable=SC2086
    run env PATH="$t/path:$PATH" $words
    status 1
    says 'the command sqlite3 has to be 3.31 or newer'
done
holds [ ! -e owned -a ! -e made.pmtiles ]
holds [ -z "$(find . -name '.mbtiles-to-*')" ]
ends

# Rows that have no place among tiles are named, and --strict takes none.
for way in '' --by-script; do
    for rows in '2, 5, 0' '31, 0, 0' '-1, 0, 0' 'null, 0, 0' '1, null, 0' "1, 0, 'x'" '1, 0, 0.5' '1, -1, 0'; do
        fresh "a row of the place ($rows)${way:+, $way}"
        "$real" a.mbtiles "$names; create table tiles (zoom_level, tile_column, tile_row, tile_data); $three; insert into tiles values ($rows, x'03')"
        run "$convert" $way a.mbtiles made.pmtiles
        case $got in
        0)
            holds same made.pmtiles a.mbtiles
            holds [ "$(grep -c 'a.mbtiles: 1 row' err)" = 1 ]
            says 'left out'
            ;;
        esac
        right_or_refused
        run "$convert" $way --strict a.mbtiles made.pmtiles
        status 1
        says 'a.mbtiles'
        holds [ ! -e made.pmtiles ]
        ends
    done
    fresh "nothing is left out${way:+, $way}"
    "$real" a.mbtiles "$names; create table tiles ($columns); $three; insert into metadata values ('format', 'png'), ('bounds', '-1,-2,3,4')"
    run "$convert" $way --strict a.mbtiles made.pmtiles
    status 0
    holds same made.pmtiles a.mbtiles
    # a center that isn't said is the middle of the bounds, at the least zoom
    holds [ "$(od -An -j118 -N1 -tu1 made.pmtiles | tr -d ' ')" = 0 ]
    holds [ "$(od -An -j119 -N8 -td4 made.pmtiles | xargs)" = '10000000 10000000' ]
    ends
    fresh "metadata that is left out${way:+, $way}"
    "$real" a.mbtiles "$names; create table tiles ($columns); $three; insert into metadata values ('format', 'png'), ('bounds', '-500,-2,3,4')"
    run "$convert" $way a.mbtiles made.pmtiles
    right_or_refused
    run "$convert" $way --strict a.mbtiles made.pmtiles
    status 1
    holds [ ! -e made.pmtiles ]
    ends
done

# What stands beside a file is read too, whatever name leads to it.
fresh 'links that hide a log and a journal'
mkdir beyond
printf '%s\n' 'pragma journal_mode = wal; pragma wal_autocheckpoint = 0;' "$names; create table tiles ($columns); $three;" '.shell cp b.mbtiles beyond/a.mbtiles && cp b.mbtiles-wal beyond/a.mbtiles-wal' | "$real" b.mbtiles >/dev/null
ln -s beyond/a.mbtiles link.mbtiles
cp beyond/a.mbtiles beyond/a.mbtiles-wal .
for reader in "$convert" "$program" "$convert --by-script"; do
    # shellcheck disable=SC2086
    run $reader link.mbtiles made.pmtiles
    right_or_refused link.mbtiles
done
rm -r a.mbtiles* beyond
mkdir beyond
set_of b2.mbtiles "$three"
printf '%s\n' 'pragma cache_size = 2; begin exclusive; create table spilled (x); insert into spilled values (zeroblob(300000));' \
    "update tiles set tile_data = x'09';" '.shell cp b2.mbtiles beyond/a.mbtiles && cp b2.mbtiles-journal beyond/a.mbtiles-journal' | "$real" b2.mbtiles >/dev/null
cp beyond/a.mbtiles beyond/a.mbtiles-journal .
for reader in "$convert" "$program" "$convert --by-script"; do
    # shellcheck disable=SC2086
    run $reader link.mbtiles made.pmtiles
    status 1
    says 'link.mbtiles'
    holds [ ! -e made.pmtiles ]
done
ends

fresh 'a set on standard input'
printf '%s\n' 'pragma journal_mode = wal; pragma wal_autocheckpoint = 0;' "$names; create table tiles ($columns); $three;" '.shell cp b.mbtiles a.mbtiles && cp b.mbtiles-wal a.mbtiles-wal' | "$real" b.mbtiles >/dev/null
for reader in "$convert" "$program" "$convert --by-script"; do
    for name in /dev/stdin /proc/self/fd/0; do
        # shellcheck disable=SC2086
        feed a.mbtiles $reader $name made.pmtiles
        right_or_refused "$name"
    done
done
ends

if [ "$(id -u)" = 0 ] && command -v setpriv >/dev/null; then
    fresh 'a log and a journal that only another user reads'
    chmod 755 . "$here" "$room"
    chmod -R a+rX "$here"
    mkdir to
    chmod 777 to
    as_nobody() { run setpriv --reuid=65534 --regid=65534 --clear-groups env TMPDIR=/tmp "$@"; }
    printf '%s\n' 'pragma journal_mode = wal; pragma wal_autocheckpoint = 0;' "$names; create table tiles ($columns); $three;" '.shell cp b.mbtiles a.mbtiles && cp b.mbtiles-wal a.mbtiles-wal' | "$real" b.mbtiles >/dev/null
    chmod 600 a.mbtiles-wal
    for reader in "$convert" "$program" "$convert --by-script"; do
        # shellcheck disable=SC2086
        as_nobody $reader a.mbtiles to/made.pmtiles
        [ ! -e to/made.pmtiles ] || mv to/made.pmtiles .
        right_or_refused
    done
    rm a.mbtiles*
    set_of b2.mbtiles "$three"
    printf '%s\n' 'pragma cache_size = 2; begin exclusive; create table spilled (x); insert into spilled values (zeroblob(300000));' \
        "update tiles set tile_data = x'09';" '.shell cp b2.mbtiles a.mbtiles && cp b2.mbtiles-journal a.mbtiles-journal' | "$real" b2.mbtiles >/dev/null
    chmod 600 a.mbtiles-journal
    for reader in "$convert" "$program" "$convert --by-script"; do
        # shellcheck disable=SC2086
        as_nobody $reader a.mbtiles to/made.pmtiles
        case $reader in *--by-script) status 1 ;; *) status 4 ;; esac
        says 'a.mbtiles'
        holds [ ! -e to/made.pmtiles ]
    done
    set_of c.mbtiles "$three"
    chmod 600 c.mbtiles
    for reader in "$convert" "$program" "$convert --by-script"; do
        # shellcheck disable=SC2086
        as_nobody $reader c.mbtiles to/made.pmtiles
        status 4
        says 'c.mbtiles'
    done
    ends
else
    skips 'no other user can be taken here, so logs that only another user reads are not tried'
fi
