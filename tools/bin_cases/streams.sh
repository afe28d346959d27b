# Cases of tools/check_bin: streams that break or are closed, and paths that are no regular files.
# shellcheck disable=SC2034,SC2154

fresh 'a reader that ends early'
set_of a.mbtiles "insert into tiles select 6, value % 64, value / 64, randomblob(50) from (with recursive n(value) as (values (0) union all select value + 1 from n where value < 999) select value from n)"
echo '"$real" "$@" | head -n 40; exit 1' | instead sqlite3
run env PATH="$t/path:$PATH" "$bin/mbtiles-script" a.mbtiles
status 1
holds last_is_failed
cp out script
feed script "$bin/tileset" convert hex
status 3
prints 'bad script'
ends

for number in 1:HUP:129 2:INT:130 15:TERM:143; do
    signal=$(echo "$number" | cut -d: -f2)
    fresh "a script that is ended by $signal"
    set_of a.mbtiles "$one"
    echo '"$real" "$@"; sleep 20' | instead sqlite3
    ended "$signal" : PATH="$t/path:$PATH" "$bin/mbtiles-script" a.mbtiles
    status "${number##*:}"
    holds last_is_failed
    ends
done

fresh 'a look at the command and one at the pages, and then one process and one transaction'
set_of a.mbtiles "$one"
echo 'cat >>sql; echo call >>calls; exec "$real" "$@" <sql' | instead sqlite3
run env PATH="$t/path:$PATH" "$bin/mbtiles-script" a.mbtiles
status 0
holds [ "$(wc -l <calls)" = 3 ]
holds [ "$(grep -c '^begin;\|^commit;' sql)" = 2 ]
ends

fresh 'the number of rows as a last comment'
set_of a.mbtiles "$one; insert into tiles values (1, 0, 0, x'02')"
run "$bin/mbtiles-script" a.mbtiles
status 0
holds [ "$(tail -n 1 out)" = '# rows 2' ]
ends

fresh 'a script that finds no room'
set_of a.mbtiles "$one"
for where in '>/dev/full' '>&-'; do
    run bash -c "exec \"\$0\" a.mbtiles $where" "$bin/mbtiles-script"
    status 1
    says "can't be written"
done
ends

fresh 'a query that fails'
set_of a.mbtiles "$one; drop table metadata; create table metadata (name text)"
run "$bin/mbtiles-script" a.mbtiles
status 1
holds last_is_failed
says 'a.mbtiles'
ends


for place in wrapper program; do
    [ $place = wrapper ] && tileset=$bin/tileset || tileset=$here/crates/tileset_program/out/tileset_program
    [ $place = wrapper ] && serve=$bin/tile_serve || serve=$here/crates/tile_serve_program/out/tile_serve_program
    fresh "a closed standard output, $place"
    feed "$top/examples/one_tile.script" bash -c 'exec "$0" convert file made >&-' "$tileset"
    status 5
    says "standard output can't be written"
    holds [ "$(wc -l <err)" = 1 ]
    holds [ ! -e made ]
    ends
    fresh "a closed standard input, $place"
    run bash -c 'exec "$0" convert hex <&-' "$tileset"
    status 4
    says "standard input can't be read"
    ends
    fresh "a server without input, $place"
    run bash -c 'exec "$0" "$1" 64 65536 1000 1000000 <&-' "$serve" "$top/crates/tile_verify_program/data/one_tile.pmtiles"
    status 4
    says "standard input can't be read"
    ends
    fresh "a server without output, $place"
    echo 'GET 0 0 0' >asked
    feed asked bash -c 'exec "$0" "$1" 64 65536 1000 1000000 >&-' "$serve" "$top/crates/tile_verify_program/data/one_tile.pmtiles"
    status 5
    says "standard output can't be written"
    ends
    fresh "three closed streams, $place"
    run bash -c 'exec "$0" convert file made <&- >&- 2>&-' "$tileset"
    status 5
    holds [ ! -e made ]
    ends
done

fresh 'a report that nobody reads'
run bash -c '(sleep 1; cat "$1") | "$0" convert file made | true; exit ${PIPESTATUS[1]}' "$bin/tileset" "$top/examples/one_tile.script"
status 5
holds [ ! -e made ]
ends

fresh 'standard output as the archive'
for path in /dev/stdout link; do
    ln -sf /dev/stdout link
    feed "$top/examples/one_tile.script" bash -c '"$0" convert file "$1" | cat; exit ${PIPESTATUS[0]}' "$bin/tileset" $path
    status 6
    says 'no regular file'
    prints '^medium fault$'
done
feed "$top/examples/one_tile.script" "$bin/tileset" convert file /dev/stdout
status 6
says 'this file'
feed "$top/examples/one_tile.script" "$bin/tileset" convert file "$t/out"
status 6
ends

fresh 'paths that are no regular files'
mkfifo pipe
mkdir folder
ln -s nowhere dangling
for path in pipe folder dangling /dev/null; do
    feed "$top/examples/one_tile.script" timeout 20 "$bin/tileset" convert file $path
    status 6
    says "tileset: $path: "
done
holds [ ! -e nowhere ]
feed "$top/examples/one_tile.script" "$bin/tileset" convert file none/made
status 6
says 'none/made: .*No such file'
ends
