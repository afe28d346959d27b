# Cases of tools/check_bin: archives to databases, which a second reader reads.
# shellcheck disable=SC2034,SC2154

# a name of the metadata of a database, and what is left of a run
value_of() { "$real" "$1" "select value from metadata where name = '$2'"; }
names_are() { [ "$("$real" "$1" "select group_concat(name, ' ') from (select name from metadata order by name)")" = "$2" ]; }
is_flat() { [ "$("$real" "$1" "select group_concat(type || ' ' || name, ', ') from (select type, name from sqlite_master where type <> 'index' order by name)")" = 'table metadata, table tiles' ]; }
no_rest_of() { [ -z "$(find . -name "$1.new*")" ] && [ ! -e "$1-wal" ] && [ ! -e "$1-journal" ]; }

# a center in the middle of the bounds at the least zoom is what an archive has of a set that says none
fresh 'an archive of a set of another tool, and back'
"$bin/mbtiles-to-pmtiles" "$top/examples/places.mbtiles" places.pmtiles >/dev/null
before=$(cksum places.pmtiles)
run "$back" places.pmtiles back.mbtiles
status 0
holds [ ! -s out ]
holds [ ! -s err ]
holds [ "$(cksum places.pmtiles)" = "$before" ]
holds no_rest_of back.mbtiles
holds same places.pmtiles back.mbtiles
holds same_has '74 0 4 1 2 '
holds is_flat back.mbtiles
holds is_whole back.mbtiles
holds [ "$("$real" back.mbtiles 'select count(*), count(distinct tile_data) from tiles')" = '74|74' ]
holds names_are back.mbtiles "$("$real" "$top/examples/places.mbtiles" "select group_concat(name, ' ') from (select name from metadata where name not in ('scheme', 'center') order by name)")"
for name in name version type format minzoom maxzoom description; do
    holds [ "$(value_of back.mbtiles $name)" = "$(value_of "$top/examples/places.mbtiles" $name)" ]
done
holds [ "$(value_of back.mbtiles bounds)" = '-169.397,-66.799,164.023,65.319' ]
# the same way once more, from the database that the program made: byte for byte what it gave before
run "$bin/mbtiles-to-pmtiles" --hash back.mbtiles again.pmtiles
status 0
prints '^tiles 74, contents 74$'
prints '^aggregate EC2E17497F1A0710C140C58302E3A394$'
cp same first
holds same again.pmtiles "$top/examples/places.mbtiles"
holds cmp -s same first
run "$back" again.pmtiles twice.mbtiles
status 0
run "$bin/mbtiles-to-pmtiles" twice.mbtiles third.pmtiles
status 0
holds cmp -s again.pmtiles third.pmtiles
run "$back" places.pmtiles back.mbtiles
status 1
says 'back.mbtiles is there and stays'
holds same places.pmtiles back.mbtiles
holds no_rest_of back.mbtiles
ends

fresh 'an archive of runs, leaves and tiles of each zoom'
{
    printf 'option %s\n' 'type png' 'metadata t{"name":"grid","tilestats":{"half":0.5},"scheme":"xyz"}' 'bounds -1 -900000000 1800000000 1234567' 'center 5 -5' 'center-zoom 3'
    printf 'base flat\nrow tiles i0 i0 i0 x30\nrow tiles i5 i1 i2 x35\nrow tiles i30 i0 i0 x33\n'
    awk 'BEGIN { for (x = 0; x < 128; x++) for (y = 0; y < 128; y++) printf "row tiles i7 i%d i%d x%s\n", x, y, x < 64 ? "3131" : sprintf("%02x%02x", x, y) }'
} >script
feed script "$bin/tileset" convert file grid.pmtiles
status 0
prints '^addressed 16387$'
run "$bin/tile_verify" grid.pmtiles
prints '^sound [1-9]'
run "$back" grid.pmtiles grid.mbtiles 16387
status 0
holds same grid.pmtiles grid.mbtiles
holds same_has '16387 '
holds is_whole grid.mbtiles
holds [ "$("$real" grid.mbtiles 'select count(*), count(distinct tile_data), min(zoom_level), max(zoom_level) from tiles')" = '16387|8196|0|30' ]
holds names_are grid.mbtiles 'bounds center format json maxzoom minzoom name'
holds [ "$(value_of grid.mbtiles bounds)" = '-0.0000001,-90,180,0.1234567' ]
holds [ "$(value_of grid.mbtiles center)" = '0.0000005,-0.0000005,3' ]
holds [ "$(value_of grid.mbtiles json)" = '{"scheme":"xyz","tilestats":{"half":0.5}}' ]
holds [ "$(value_of grid.mbtiles format)" = png ]
run "$back" grid.pmtiles few.mbtiles 16386
status 1
says 'grid.pmtiles: the archive has more than 16386 tiles'
holds [ ! -e few.mbtiles ]
holds no_rest_of few.mbtiles
ends

fresh 'an archive without tiles'
printf 'base flat\n' >script
feed script "$bin/tileset" convert file none.pmtiles
run "$back" none.pmtiles none.mbtiles 0
status 0
holds is_flat none.mbtiles
holds [ "$("$real" none.mbtiles 'select count(*) from tiles')" = 0 ]
holds names_are none.mbtiles 'maxzoom minzoom'
ends

fresh 'refused archives leave no database'
echo no >bad
run "$back" bad made.mbtiles
status 1
says 'pmtiles-to-mbtiles: bad: .*PMTiles'
head -c 16386 "$two_tiles" >short
run "$back" short made.mbtiles
status 1
says 'pmtiles-to-mbtiles: short: '
cp "$two_tiles" gzip
printf '\002' | dd of=gzip bs=1 seek=97 conv=notrunc 2>/dev/null
run "$back" gzip made.mbtiles
status 1
says 'unsupported compression.*plain'
{ head -c 16384 "$two_tiles"; printf '[]'; tail -c +16387 "$two_tiles"; } >list
run "$back" list made.mbtiles
status 1
says 'list: invalid metadata'
run "$back" missing made.mbtiles
status 3
says 'pmtiles-to-mbtiles: missing: No such file'
prints '^source fault$'
run "$back" . made.mbtiles
status 4
says 'no regular file'
mkfifo pipe
run timeout 20 "$back" pipe made.mbtiles
status 4
says 'pipe: no regular file'
for words in "" "$two_tiles" "$two_tiles made.mbtiles ten" "$two_tiles made.mbtiles 01" "$two_tiles made.mbtiles 1 2"; do
    # shellcheck disable=SC2086
    run "$back" $words
    status 2
    says '^pmtiles-to-mbtiles: usage: pmtiles-to-mbtiles IN.pmtiles OUT.mbtiles'
    holds [ ! -s out ]
done
holds [ ! -e made.mbtiles ]
holds no_rest_of made.mbtiles
ends

fresh 'places where no database is made'
ln -s nowhere dangling
mkdir folder
mkfifo pipe
: >empty
for path in dangling folder pipe empty /dev/null; do
    run timeout 20 "$back" "$two_tiles" $path
    status 1
    says "$path is there"
done
holds [ ! -e nowhere ]
holds [ ! -s empty ]
run "$back" "$two_tiles" none/made.mbtiles
status 6
says 'none/made.mbtiles: .*No such file'
prints '^store fault$'
mkdir made.mbtiles.new
run "$back" "$two_tiles" made.mbtiles
status 1
says 'made.mbtiles.new is there'
holds [ ! -e made.mbtiles ]
rmdir made.mbtiles.new
for log in made.mbtiles-wal made.mbtiles-journal; do
    echo before >$log
    run "$back" "$two_tiles" made.mbtiles
    status 1
    says "$log is there"
    holds [ "$(cat $log)" = before ]
    holds [ ! -e made.mbtiles ]
    rm $log
done
echo before >made.mbtiles.new-wal
run "$back" "$two_tiles" made.mbtiles
status 0
holds same "$two_tiles" made.mbtiles
holds no_rest_of made.mbtiles
mkdir 'a folder'
run "$back" "$two_tiles" 'a folder/x y.mbtiles'
status 0
holds same "$two_tiles" 'a folder/x y.mbtiles'
ends

fresh 'a database beside closed streams'
run bash -c 'exec "$0" "$1" made.mbtiles <&- >&- 2>&-' "$here/crates/pmtiles_to_mbtiles_program/out/pmtiles_to_mbtiles_program" "$two_tiles"
status 0
holds same "$two_tiles" made.mbtiles
run bash -c 'exec "$0" --help >/dev/full' "$back"
status 5
ends
