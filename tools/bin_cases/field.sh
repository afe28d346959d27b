# Cases of tools/check_bin: what sets of the field have.
# shellcheck disable=SC2034,SC2154

# field NAME SQL: a set, and its script
field() {
    fresh "$1"
    set_of a.mbtiles "$2"
    run "$bin/mbtiles-script" a.mbtiles
}

field 'a row twice' "insert into tiles values (0, 0, 0, x'01'), (0, 0, 0, x'01'), (1, 0, 0, x'02')"
status 0
says 'a.mbtiles: 1 rows repeat another'
holds [ "$(grep -c '^row' out)" = 2 ]
cp out script
feed script "$bin/tileset" convert hex
status 0
ends

field 'a row twice with different contents' "insert into tiles values (1, 0, 0, x'01'), (1, 0, 0, x'02')"
status 1
says 'a.mbtiles: tile 1/0/1 (tile_row 0) is there twice'
holds last_is_failed
ends

field 'texts that are no UTF-8' "$one; insert into metadata values ('a', cast(x'c328' as text)), (cast(x'ff' as text), 'b'), ('ok', 'é'), ('z', cast(x'6100' as text)), ('json', cast(x'7b2261223a22c328227d' as text))"
status 0
says 'a.mbtiles: a in the metadata is no text in UTF-8'
prints '%22%6F%6B%22%3A%22%C3%A9%22'
cp out script
feed script "$bin/tileset" convert hex
status 0
ends

field 'bounds, center and zooms out of range and form' "$one; insert into metadata values ('bounds', '-200,0,1,1'), ('center', '1,2,3,4'), ('minzoom', '5'), ('maxzoom', 'x')"
status 0
says 'bounds.*out of range or form.*-200,0,1,1'
says 'center.*out of range or form.*1,2,3,4'
says 'minzoom 5 .* 0, which counts'
says 'maxzoom x '
prints '^option max-zoom 0$'
holds eval '! grep -q "option bounds\|option center" out'
ends

field 'texts of several lines' "$one; insert into metadata values ('bounds', '1' || char(10) || 'rows'), ('a' || char(10) || 'zooms 5 6', x'01'), ('maxzoom', 'x' || char(10) || 'zooms 7 8')"
status 0
prints '^option max-zoom 0$'
holds [ "$(tail -n 1 out)" = '# rows 1' ]
holds [ "$(wc -l <err)" = 4 ]
ends

field 'numbers with leading zeros' "$one; insert into metadata values ('bounds', '-010, 0,10.5,1e1'), ('center', '010,5,07')"
status 0
prints '^option bounds -100000000 0 105000000 100000000$'
prints '^option center 100000000 50000000$'
prints '^option center-zoom 7$'
ends

fresh 'numbers as text, and a table in capitals'
"$real" a.mbtiles "create table TILES (ZOOM_LEVEL text, tile_column text, tile_row text, tile_data blob); create table METADATA (name text, value text);
    insert into TILES values ('1', '0', '1', x'01'), ('a', '0', '0', x'02'); insert into METADATA values ('format', 'png')"
run "$bin/mbtiles-script" a.mbtiles
status 0
says '1 rows outside the grid'
prints '^row tiles i1 i0 i1 x01$'
prints '^option type png$'
ends

field 'no row in the grid' "insert into tiles values (0, 1, 0, x'01'), ('a', 0, 0, x'01')"
status 1
says 'a.mbtiles: none of its 2 rows lies in the grid'
ends

fresh 'no metadata'
"$real" a.mbtiles "create table tiles (zoom_level integer, tile_column integer, tile_row integer, tile_data blob); $one"
run "$bin/mbtiles-script" a.mbtiles
status 0
says 'no metadata says which type'
prints '^option type unknown$'
ends

for spelling in PNG:png image/png:png jpg:jpeg JPEG:jpeg image/jpeg:jpeg pbf:mvt mvt:mvt application/x-protobuf:mvt webp:webp; do
    field "the format $spelling" "$one; insert into metadata values ('format', '${spelling%:*}')"
    status 0
    prints "^option type ${spelling#*:}$"
    ends
done

field 'a format that is not known' "$one; insert into metadata values ('format', 'tiff')"
status 0
says 'the format tiff'
prints '^option type unknown$'
run "$bin/mbtiles-script" a.mbtiles tiff
status 2
says 'tiff is no type'
run "$bin/mbtiles-script" a.mbtiles jpg
status 0
prints '^option type jpeg$'
ends

field 'all of the metadata' "$one; insert into metadata values ('json', '{\"vector_layers\":[{\"id\":\"a\"}],\"tilestats\":{\"n\":1.5},\"generator\":\"j\"}'), ('generator', 'g'), ('legend', 'l'), ('legend', 'm'), ('my', 'x'), ('n', 5), ('minzoom', '0'), ('scheme', 'tms')"
status 0
says 'the name legend stands in the metadata more than once'
metadata=$(sed -n 's/^option metadata t//p' out | sed 's/%/\\x/g')
holds [ "$(printf '%b' "$metadata")" = '{"generator":"g","legend":"l","my":"x","n":"5","vector_layers":[{"id":"a"}],"tilestats":{"n":1.5}}' ]
ends

fresh 'a set that is locked'
set_of a.mbtiles "$one"
(echo 'begin exclusive;'; sleep 12) | "$real" a.mbtiles &
sleep 1
run "$bin/mbtiles-script" a.mbtiles
status 1
says 'a.mbtiles is locked by another program'
holds last_is_failed
kill %% 2>/dev/null
wait
ends

if [ "$(id -u)" = 0 ] && command -v setpriv >/dev/null; then
    fresh 'WAL in a folder that is only read'
    set_of a.mbtiles "pragma journal_mode = wal; $one" >/dev/null
    mkdir folder
    mv a.mbtiles folder/
    chmod 755 . folder "$here" "$room"
    chmod -R a+rX "$here"
    run setpriv --reuid=65534 --regid=65534 --clear-groups env TMPDIR=/tmp "$bin/mbtiles-script" folder/a.mbtiles
    holds eval '[ $got = 0 ] && grep -q "# rows 1" out || { [ $got = 1 ] && grep -q "WAL mode" err; }'
    ends
else
    skips 'no other user can be taken here, so WAL in a folder that is only read is not tried'
fi

fresh 'names and settings of a user'
set_of ./-dash.mbtiles "$one"
run "$bin/mbtiles-script" -dash.mbtiles
status 0
prints '# rows 1'
set_of "it's 100%?#.mbtiles" "$one"
run "$bin/mbtiles-script" "it's 100%?#.mbtiles"
status 0
prints '# rows 1'
mkdir home
printf '.mode csv\n.headers on\nselect 1;\n' >home/.sqliterc
run env HOME="$t/home" "$bin/mbtiles-script" -dash.mbtiles
status 0
holds [ "$(sed -n '$p' out)" = '# rows 1' ]
holds eval '! grep -vq "^option\|^base\|^row\|^#" out'
ends

fresh 'files that are no sets'
echo hello >a.mbtiles
run "$bin/mbtiles-script" a.mbtiles
status 3
says 'a.mbtiles is no SQLite database'
"$real" b.mbtiles 'create table t (a)'
run "$bin/mbtiles-script" b.mbtiles
status 3
says 'b.mbtiles has no table or view named tiles'
run "$bin/mbtiles-script" missing
status 3
says 'no file missing'
run "$bin/mbtiles-script"
status 2
says 'usage'
ends

fresh 'sets that are too large'
set_of a.mbtiles "$one; insert into metadata values ('big', replace(hex(zeroblob(20000)), '0', 'a'))"
run env FATYNGU_MOST=100000 "$bin/mbtiles-script" a.mbtiles
status 1
says 'a.mbtiles: it needs a script of about .* bytes for its metadata, more than the 100000'
holds last_is_failed
"$real" a.mbtiles "update metadata set value = substr(value, 1, 10000); update tiles set tile_data = zeroblob(48000)"
run env FATYNGU_MOST=100000 "$bin/mbtiles-script" a.mbtiles
status 1
says 'a.mbtiles needs a script of about .* bytes, more than the 100000'
run env FATYNGU_MOST=100000 "$bin/mbtiles-to-pmtiles" --by-script a.mbtiles made.pmtiles
status 8
says 'bytes, more than the 100000'
holds [ ! -e made.pmtiles ]
ends
