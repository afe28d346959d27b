# Cases of tools/check_bin: sets and patches to an archive.
# shellcheck disable=SC2034,SC2154

for way in '' --by-script; do
    fresh "a set of another tool${way:+, $way}"
    run "$bin/mbtiles-to-pmtiles" $way "$top/examples/places.mbtiles" places.pmtiles
    status 0
    holds [ "$(wc -l <out)" = 2 ]
    cp out plain
    run "$bin/mbtiles-to-pmtiles" $way --overwrite --hash "$top/examples/places.mbtiles" places.pmtiles
    status 0
    holds [ "$(wc -l <out)" = 3 ]
    holds [ "$(head -n 2 out)" = "$(cat plain)" ]
    prints '^tiles 74, contents 74$'
    prints '^bytes [0-9]*$'
    prints '^aggregate EC2E17497F1A0710C140C58302E3A394$'
    holds same places.pmtiles "$top/examples/places.mbtiles"
    holds same_has '74 0 4 1 2 '
    holds same_has '"vector_layers"'
    "$bin/mbtiles-script" "$top/examples/places.mbtiles" >script
    feed script "$bin/tileset" convert file piped.pmtiles
    status 0
    holds cmp -s out "$top/examples/places.out"
    [ -z "$way" ] || holds cmp -s piped.pmtiles places.pmtiles
    run "$bin/tile_verify" places.pmtiles
    status 0
    before=$(cksum places.pmtiles)
    run "$bin/mbtiles-to-pmtiles" $way "$top/examples/places.mbtiles" places.pmtiles
    status 1
    says 'places.pmtiles is there; --overwrite'
    run "$bin/mbtiles-to-pmtiles" $way --overwrite "$top/examples/places.mbtiles" places.pmtiles
    status 0
    holds [ "$(cksum places.pmtiles)" = "$before" ]
    echo no >broken.mbtiles
    run "$bin/mbtiles-to-pmtiles" $way --overwrite broken.mbtiles places.pmtiles
    status 3
    says 'broken.mbtiles is no SQLite database'
    run "$bin/mbtiles-to-pmtiles" $way missing.mbtiles other.pmtiles
    status 3
    says 'no file missing.mbtiles'
    run "$bin/mbtiles-to-pmtiles" $way places.pmtiles
    status 2
    run "$bin/mbtiles-to-pmtiles" $way --wrong a b
    status 2
    says '^mbtiles-to-pmtiles: usage'
    run "$bin/mbtiles-to-pmtiles" "$top/examples/places.mbtiles" flagged.pmtiles $way --wrong
    status 2
    run "$bin/mbtiles-to-pmtiles" "$top/examples/places.mbtiles" flagged.pmtiles $way --force
    status 0
    holds cmp -s flagged.pmtiles places.pmtiles
    run "$bin/mbtiles-to-pmtiles" $way "$top/examples/places.mbtiles" --overwrite flagged.pmtiles
    status 0
    run "$bin/mbtiles-to-pmtiles" $way -- "$top/examples/places.mbtiles" --overwrite
    status 0
    holds cmp -s ./--overwrite places.pmtiles
    cp "$top/examples/places.mbtiles" a.mbtiles
    run "$bin/mbtiles-to-pmtiles" $way --overwrite a.mbtiles a.mbtiles
    status 1
    says 'one of the sets'
    holds [ "$(cksum places.pmtiles)" = "$before" ]
    holds [ -z "$(find . -name '.mbtiles-to*' -o -name '*.new')" ]
    ends
done

if command -v script >/dev/null; then
    fresh 'steps on a terminal'
    run script -qec "'$bin/mbtiles-to-pmtiles' '$top/examples/places.mbtiles' made.pmtiles" /dev/null
    status 0
    prints 'mbtiles-to-pmtiles: reading .*places.mbtiles'
    prints 'mbtiles-to-pmtiles: done in [0-9]* s'
    prints 'mbtiles-to-pmtiles: converting .*places.mbtiles'
    run script -qec "'$bin/mbtiles-to-pmtiles' --by-script '$top/examples/places.mbtiles' other.pmtiles" /dev/null
    status 0
    prints 'mbtiles-to-pmtiles: reading .*places.mbtiles'
    prints 'mbtiles-to-pmtiles: done in [0-9]* s'
    prints 'mbtiles-to-pmtiles: converting a script of [0-9]* bytes'
    ends

    # a program that reads a quarter of what the real one reads of a set above 8 MiB, and then all and more
    fresh 'how far it is, on a terminal'
    head -c 10000000 /dev/zero >a.mbtiles
    cp -r "$bin" bin
    cat >bin/mbtiles_to_pmtiles_program <<'PROGRAM'
#!/bin/bash
head -c 10000000 a.mbtiles | cat >/dev/null
head -c 5000000 a.mbtiles >/dev/null
sleep 2.5
for again in 1 2 3 4 5; do cat a.mbtiles >/dev/null; done
head -c 3000000 a.mbtiles >made.pmtiles.new
sleep 2.5
PROGRAM
    chmod +x bin/mbtiles_to_pmtiles_program
    run script -qec 'bin/mbtiles-to-pmtiles a.mbtiles made.pmtiles' /dev/null
    status 0
    prints 'mbtiles-to-pmtiles: [0-9]* % read'
    prints 'mbtiles-to-pmtiles: 3 MB written'
    run script -qec 'bin/mbtiles-to-pmtiles a.mbtiles made.pmtiles 2>err' /dev/null
    holds [ ! -s err ]
    ends
fi

# two patches whose hashes chain: the aggregate hash is md5 over zoom, column, row in decimal and the bytes of each
# tile in order
for way in '' --by-script; do
    fresh "a base and two chained patches${way:+, $way}"
    h0=$(md5_of '000\x01100\x02'); h1=$(md5_of '000\x01100\x03201\x04'); h2=$(md5_of '000\x01100\x03')
    set_of base.mbtiles "insert into tiles values (0, 0, 0, x'01'), (1, 0, 0, x'02'); insert into metadata values ('agg_tiles_hash', '$h0'), ('name', 'old'), ('format', 'png'), ('legend', 'l'), ('bounds', '-1,-2,3,4')"
    set_of one.mbtiles "insert into tiles values (1, 0, 0, x'03'), (2, 0, 1, x'04'); insert into metadata values ('agg_tiles_hash', 'p'), ('agg_tiles_hash_before_apply', '$h0'), ('agg_tiles_hash_after_apply', '$h1'), ('name', 'new'), ('legend', null)"
    set_of two.mbtiles "insert into tiles values (2, 0, 1, null); insert into metadata values ('agg_tiles_hash_before_apply', '$h1'), ('agg_tiles_hash_after_apply', '$h2')"
    run "$bin/mbtiles-to-pmtiles" $way --verify base.mbtiles one.mbtiles two.mbtiles made.pmtiles
    status 0
    prints "^aggregate $h2$"
    prints '^tiles 2, contents 2$'
    holds same made.pmtiles base.mbtiles one.mbtiles two.mbtiles
    holds same_has '2 0 1 2 1 {"name": "new"}'
    run "$bin/mbtiles-to-pmtiles" $way base.mbtiles two.mbtiles one.mbtiles wrong.pmtiles
    status 1
    says 'two.mbtiles is refused: .*--force'
    holds [ ! -e wrong.pmtiles ]
    run "$bin/mbtiles-to-pmtiles" $way --force base.mbtiles two.mbtiles one.mbtiles forced.pmtiles
    status 0
    holds same forced.pmtiles base.mbtiles two.mbtiles one.mbtiles
    set_of plain.mbtiles "insert into tiles values (0, 0, 0, x'09')"
    run "$bin/mbtiles-to-pmtiles" $way plain.mbtiles plain.mbtiles wrong.pmtiles
    status 1
    says 'plain.mbtiles is refused: .*--force'
    run "$bin/mbtiles-to-pmtiles" $way --verify plain.mbtiles wrong.pmtiles
    status 1
    if [ -n "$way" ]; then says 'no hashes that --verify could test'; else says 'plain.mbtiles is refused: .*without --verify none is asked for'; fi
    "$real" base.mbtiles "update metadata set value = '$h1' where name = 'agg_tiles_hash'"
    run "$bin/mbtiles-to-pmtiles" $way --verify base.mbtiles wrong.pmtiles
    status 1
    says 'base.mbtiles is refused: aggregate hash mismatch'
    ends
done

fresh 'a set of map and images'
a=$(md5_of '\x01'); b=$(md5_of '\x02' | tr A-F a-f)
"$real" a.mbtiles "create table map (zoom_level integer, tile_column integer, tile_row integer, tile_id text); create table images (tile_data blob, tile_id text);
    create unique index m on map (zoom_level, tile_column, tile_row); create unique index i on images (tile_id);
    create view tiles as select zoom_level, tile_column, tile_row, tile_data from map join images on images.tile_id = map.tile_id; create table metadata (name text, value text);
    insert into images values (x'01', '$a'), (x'02', '$b'); insert into map values (0, 0, 0, '$a'), (1, 0, 0, '$b'), (1, 1, 0, '$b')"
run "$bin/mbtiles-to-pmtiles" --by-script --verify a.mbtiles made.pmtiles
status 0
prints '^tiles 3, contents 2$'
holds same made.pmtiles a.mbtiles
run "$bin/mbtiles-to-pmtiles" --overwrite a.mbtiles made.pmtiles
status 0
prints '^tiles 3, contents 2$'
holds same made.pmtiles a.mbtiles
"$real" a.mbtiles "update images set tile_data = x'03' where tile_id = '$b'"
run "$bin/mbtiles-to-pmtiles" --by-script --verify a.mbtiles wrong.pmtiles
status 1
says 'a.mbtiles is refused: incorrect tile hash.*without --verify'
run "$bin/mbtiles-to-pmtiles" a.mbtiles wrong.pmtiles
status 1
says 'a.mbtiles is refused: incorrect tile hash.*--by-script'
holds [ ! -e wrong.pmtiles ]
run "$bin/mbtiles-to-pmtiles" --by-script a.mbtiles flat.pmtiles
status 0
holds same flat.pmtiles a.mbtiles
"$real" a.mbtiles "update images set tile_id = 'my-' || tile_id; update map set tile_id = 'my-' || tile_id"
run "$bin/mbtiles-to-pmtiles" --by-script a.mbtiles ids.pmtiles
status 0
holds same ids.pmtiles a.mbtiles
ends

fresh 'a flat set with hashes'
"$real" a.mbtiles "create table tiles_with_hash (zoom_level integer, tile_column integer, tile_row integer, tile_data blob, tile_hash text);
    create unique index t on tiles_with_hash (zoom_level, tile_column, tile_row); create view tiles as select zoom_level, tile_column, tile_row, tile_data from tiles_with_hash;
    create table metadata (name text, value text); insert into tiles_with_hash values (0, 0, 0, x'01', '$(md5_of '\x01')'), (1, 0, 0, x'02', '$(md5_of '\x02')')"
run "$bin/mbtiles-to-pmtiles" --by-script --verify a.mbtiles made.pmtiles
status 0
holds same made.pmtiles a.mbtiles
run "$bin/mbtiles-to-pmtiles" --overwrite a.mbtiles made.pmtiles
status 0
holds same made.pmtiles a.mbtiles
"$real" a.mbtiles "update tiles_with_hash set tile_data = x'03' where zoom_level = 1"
run "$bin/mbtiles-to-pmtiles" --by-script --verify a.mbtiles wrong.pmtiles
status 1
says 'a.mbtiles is refused: incorrect tile hash'
ends

fresh 'a converter that loses a tile'
set_of a.mbtiles "$one; insert into tiles values (1, 0, 0, x'02')"
cp -r "$bin" bin
rm bin/tileset
cat >bin/tileset <<'TILESET'
#!/bin/bash
grep -v 'i1 i0 i0' | "$REAL" "$@"
TILESET
chmod +x bin/tileset
run env REAL="$here/crates/tileset_program/out/tileset_program" bin/mbtiles-to-pmtiles --by-script a.mbtiles made.pmtiles
status 1
says 'has 1 tiles and the sets have 2'
holds [ ! -e made.pmtiles ]
ends

fresh 'a command by script that is ended'
set_of a.mbtiles "$one"
echo '"$real" "$@"; sleep 20' | instead sqlite3
mkdir to
ended TERM : PATH="$t/path:$PATH" "$bin/mbtiles-to-pmtiles" --by-script a.mbtiles to/made.pmtiles
status 143
holds nothing_in to
ends

fresh 'a command that is ended'
set_of a.mbtiles "$one"
cp -r "$bin" bin
cat >bin/mbtiles_to_pmtiles_program <<'PROGRAM'
#!/bin/bash
for out; do :; done
exec 9>"$out.new"
exec sleep 20
PROGRAM
chmod +x bin/mbtiles_to_pmtiles_program
ends_by_signals bin/mbtiles-to-pmtiles a.mbtiles to/made.pmtiles
mkdir to
# a file that another run made meanwhile stays
printf '#!/bin/bash\nexec sleep 20\n' >bin/mbtiles_to_pmtiles_program
ended TERM 'echo other >to/made.pmtiles.new' bin/mbtiles-to-pmtiles a.mbtiles to/made.pmtiles
status 143
holds [ "$(cat to/made.pmtiles.new)" = other ]
ends
