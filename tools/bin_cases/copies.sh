# Cases of tools/check_bin: the subcommands of bin/fatyngu that make sets of other ones: copies, patches, and sets out
# of folders and back. What a set has is asked of sqlite3.
# shellcheck disable=SC2034,SC2154

fresh 'copies'
cp "$places" a.mbtiles
run "$fatyngu" copy a.mbtiles b.mbtiles
status 0
holds [ "$(tiles_of b.mbtiles)" = "$(tiles_of a.mbtiles)" ]
holds [ "$(ask b.mbtiles "select value from metadata where name = 'agg_tiles_hash'")" = EC2E17497F1A0710C140C58302E3A394 ]
holds is_whole b.mbtiles
before=$(cksum b.mbtiles)
run "$fatyngu" copy a.mbtiles b.mbtiles
status 1
says 'b.mbtiles is there; --on-duplicate'
run "$fatyngu" copy a.mbtiles b.mbtiles --on-duplicate abort
status 1
says 'duplicate values'
run "$fatyngu" copy a.mbtiles ./a.mbtiles --on-duplicate override
status 1
says 'are one file'
holds [ "$(cksum b.mbtiles)" = "$before" ]
for layout in flat flat-with-hash normalized; do
    run "$fatyngu" copy a.mbtiles $layout.mbtiles --mbtiles-type $layout --zoom-levels 1,3 --hash-algorithm xxh3 --copy tiles
    status 0
    holds [ "$(tiles_of $layout.mbtiles)" = "$(ask a.mbtiles "select zoom_level, tile_column, tile_row, hex(tile_data) from tiles where zoom_level in (1, 3) order by 1, 2, 3")" ]
    holds [ "$(ask $layout.mbtiles "select value from metadata where name = 'hash_algorithm'")" = xxh3 ]
    holds [ -z "$(ask $layout.mbtiles "select value from metadata where name = 'name'")" ]
    holds is_whole $layout.mbtiles
    run "$fatyngu" validate $layout.mbtiles
    status 0
    run "$fatyngu" summary $layout.mbtiles
    prints "^layout $layout"
done
run "$fatyngu" copy a.mbtiles flat.mbtiles --on-duplicate ignore --min-zoom 4
status 0
holds [ "$(ask flat.mbtiles 'select group_concat(distinct zoom_level) from tiles')" = 1,3,4 ]
run "$fatyngu" validate flat.mbtiles
status 0
mkdir folder.mbtiles
run "$fatyngu" copy a.mbtiles folder.mbtiles --on-duplicate override
status 4
ln -s nowhere dangling
run "$fatyngu" copy a.mbtiles dangling
status 1
run "$fatyngu" copy a.mbtiles none/made.mbtiles
status 6
holds [ ! -e nowhere ]
holds no_rest
ends

fresh 'patches'
h0=$(md5_of '000\x01100\x02'); h1=$(md5_of '000\x01201\x04')
set_of base.mbtiles "create unique index i on tiles (zoom_level, tile_column, tile_row); insert into tiles values (0, 0, 0, x'01'), (1, 0, 0, x'02'); insert into metadata values ('agg_tiles_hash', '$h0'), ('name', 'old')"
set_of one.mbtiles "insert into tiles values (1, 0, 0, null), (2, 0, 1, x'04'); insert into metadata values ('agg_tiles_hash_before_apply', '$h0'), ('agg_tiles_hash_after_apply', '$h1'), ('name', 'new')"
cp base.mbtiles a.mbtiles
run "$fatyngu" patch a.mbtiles one.mbtiles
status 0
holds [ "$(tiles_of a.mbtiles)" = "0|0|0|01
2|0|1|04" ]
holds [ "$(ask a.mbtiles "select name, value from metadata order by name")" = "agg_tiles_hash|$h1
name|new" ]
run "$fatyngu" validate a.mbtiles
status 0
before=$(cksum a.mbtiles)
run "$fatyngu" patch a.mbtiles one.mbtiles
status 1
says 'aggregate hash mismatch: .*--force'
holds [ "$(cksum a.mbtiles)" = "$before" ]
run "$fatyngu" patch a.mbtiles one.mbtiles --force
status 0
run "$fatyngu" patch a.mbtiles missing.mbtiles
status 3
holds no_rest
ends

fresh 'copies with a patch'
sets_of_patch() {
    set_of base.mbtiles "create unique index i on tiles (zoom_level, tile_column, tile_row); insert into tiles values (0, 0, 0, x'01'), (1, 0, 0, x'02'), (1, 1, 1, x'02'); insert into metadata values ('agg_tiles_hash', '$h0'), ('name', 'old'), ('gone', 'text'), ('kept', 'text')"
    set_of one.mbtiles "insert into tiles values (1, 0, 0, null), (2, 0, 1, x'04'); insert into metadata values ('agg_tiles_hash_before_apply', '$h0'), ('agg_tiles_hash_after_apply', '$h1'), ('name', 'new'), ('gone', null)"
}
h0=$(md5_of '000\x01100\x02111\x02'); h1=$(md5_of '000\x01111\x02201\x04')
sets_of_patch
before=$(cksum base.mbtiles one.mbtiles)
run "$fatyngu" copy base.mbtiles out.mbtiles --apply-patch one.mbtiles
status 0
holds [ ! -s err ]
holds [ "$(tiles_of out.mbtiles)" = "0|0|0|01
1|1|1|02
2|0|1|04" ]
holds [ "$(ask out.mbtiles "select name, value from metadata order by name")" = "agg_tiles_hash|$h1
hash_algorithm|md5
kept|text
name|new" ]
holds is_whole out.mbtiles
run "$fatyngu" validate out.mbtiles
status 0
run "$fatyngu" copy base.mbtiles out.mbtiles --apply-patch one.mbtiles
status 1
says 'out.mbtiles is there; what --apply-patch makes goes into a new file'
run "$fatyngu" copy base.mbtiles out.mbtiles --apply-patch one.mbtiles --on-duplicate override
status 1
for layout in flat flat-with-hash normalized; do
    run "$fatyngu" copy --apply-patch one.mbtiles --mbtiles-type $layout base.mbtiles $layout.mbtiles --copy tiles
    status 0
    holds [ "$(tiles_of $layout.mbtiles)" = "$(tiles_of out.mbtiles)" ]
    holds [ "$(ask $layout.mbtiles "select name, value from metadata order by name")" = "agg_tiles_hash|$h1
hash_algorithm|md5" ]
    run "$fatyngu" summary $layout.mbtiles
    prints "^layout $layout"
    run "$fatyngu" validate $layout.mbtiles
    status 0
done
run "$fatyngu" copy base.mbtiles none.mbtiles --apply-patch one.mbtiles --mbtiles-type cache
status 1
says 'base.mbtiles with the patch one.mbtiles: .*another --mbtiles-type'
# the hash that the patch says is by another algorithm
run "$fatyngu" copy base.mbtiles none.mbtiles --apply-patch one.mbtiles --hash-algorithm xxh3
status 1
says '--force takes the patch'
# a part of what the patch makes has another hash than the patch says
run "$fatyngu" copy base.mbtiles none.mbtiles --apply-patch one.mbtiles --min-zoom 1
status 1
says 'hash.*--force takes the patch'
holds [ ! -e none.mbtiles ]
run "$fatyngu" copy base.mbtiles part.mbtiles --apply-patch one.mbtiles --min-zoom 1 --force
status 0
holds [ "$(tiles_of part.mbtiles)" = "1|1|1|02
2|0|1|04" ]
run "$fatyngu" copy base.mbtiles bare.mbtiles --apply-patch one.mbtiles --skip-agg-tiles-hash
status 0
holds [ "$(ask bare.mbtiles "select name from metadata order by name")" = "hash_algorithm
kept
name" ]
holds [ "$(cksum base.mbtiles one.mbtiles)" = "$before" ]
for edit in "delete from metadata where name = 'agg_tiles_hash_before_apply'" "update metadata set value = '$h0' where name like '%after_apply'" "delete from metadata"; do
    rm -f base.mbtiles one.mbtiles
    sets_of_patch
    "$real" one.mbtiles "$edit"
    run "$fatyngu" copy base.mbtiles none.mbtiles --apply-patch one.mbtiles
    status 1
    says '--force takes the patch'
    rm -f forced.mbtiles
    run "$fatyngu" copy base.mbtiles forced.mbtiles --apply-patch one.mbtiles --force
    status 0
    holds [ "$(tiles_of forced.mbtiles)" = "$(tiles_of out.mbtiles)" ]
done
"$real" base.mbtiles "delete from metadata where name = 'agg_tiles_hash'"
run "$fatyngu" copy base.mbtiles none.mbtiles --apply-patch one.mbtiles
status 1
run "$fatyngu" copy base.mbtiles none.mbtiles --apply-patch missing.mbtiles
status 3
run "$fatyngu" copy missing.mbtiles none.mbtiles --apply-patch one.mbtiles
status 3
"$real" one.mbtiles "insert into tiles values (1, 9, 0, x'05')"
run "$fatyngu" copy base.mbtiles none.mbtiles --apply-patch one.mbtiles --force
status 1
says '1 outside the grid'
holds [ ! -e none.mbtiles ]
run "$fatyngu" copy base.mbtiles none.mbtiles --apply-patch
status 2
holds no_rest
ends

fresh 'folders'
for scheme in xyz tms; do
    run "$fatyngu" unpack "$places" $scheme --scheme $scheme
    status 0
    holds [ "$(find $scheme -type f | wc -l)" = 74 ]
    run "$fatyngu" pack $scheme $scheme.mbtiles --scheme $scheme
    status 0
    holds [ "$(tiles_of $scheme.mbtiles)" = "$(tiles_of "$places")" ]
    holds [ "$(ask $scheme.mbtiles "select group_concat(name || '=' || value, ' ') from (select * from metadata where name in ('format', 'minzoom', 'maxzoom') order by name)")" = 'format=pbf maxzoom=4 minzoom=0' ]
    holds is_whole $scheme.mbtiles
done
wanted=$(ask "$places" "select hex(tile_data) from tiles where zoom_level = 1 and tile_column = 0 and tile_row = 0")
holds [ "$(od -An -v -tx1 xyz/1/0/1.pbf | tr -d ' \n' | tr a-f A-F)" = "$wanted" ]
run "$fatyngu" unpack "$places" xyz
status 1
says 'no empty folder'
run "$fatyngu" pack xyz xyz.mbtiles
status 1
says 'xyz.mbtiles is there'
run "$fatyngu" pack none made.mbtiles
status 3
run "$fatyngu" pack xyz.mbtiles made.mbtiles
status 3
says 'no folder'
echo one >xyz/0/0/0.png
run "$fatyngu" pack xyz made.mbtiles
status 1
holds [ ! -e made.mbtiles ]
rm xyz/0/0/0.png
: >xyz/0/0/0.txt
run "$fatyngu" pack xyz made.mbtiles
status 1
holds [ ! -e made.mbtiles ]
set_of bare.mbtiles "$one"
run "$fatyngu" unpack bare.mbtiles bare
status 1
says 'fatyngu meta set SET format'
holds [ ! -e bare ]
holds no_rest
ends

fresh 'what of a folder is packed as no tile'
mkdir -p tree/a/+1/00 tree/2/1 tree/3/0 tree/.git/0 tree/é/1/1
# those that are tiles, each of a byte of its own
printf a >tree/a/+1/00/0.PNG
printf b >tree/2/1/+02.png
printf c >tree/é/1/1/1.png
printf d >elsewhere
ln -s "$t/elsewhere" tree/3/0/7.png
# those that nobody takes for tiles
touch tree/.DS_Store tree/2/1/.3.png tree/.git/0/0.png tree/metadata.json
run "$fatyngu" pack tree plain.mbtiles --strict
status 0
holds [ ! -s err ]
holds [ "$(tiles_of plain.mbtiles)" = '1|0|1|61
1|1|0|63
2|1|1|62
3|0|0|64' ]
# each of them alone is told, and refused with --strict
for path in 2/1/3.png.gz 1/x/0.png x/1/0.png 1/0.png 0.png 256/0/0.png 1/4294967296/0.png 1/0/4294967296.png \
    1/0/-1.png 1/0/+.png 1/0/1..png 1/0/metadata.json notes.txt '1/0/0 .png' '1/0/ 0.png' 1/0/0x0.png 1/0/1/tile.png \
    $'caf\xe9/0/0/0.png' 2/1/pipe 2/1/4.png link; do
    mkdir -p "odd/$path"
    rmdir "odd/$path"
    case $path in
    *pipe) mkfifo "odd/$path" ;;
    2/1/4.png) ln -s nowhere "odd/$path" ;;
    link) ln -s "$t/tree/a" odd/link ;;
    *) printf e >"odd/$path" ;;
    esac
    rm -rf one
    cp -r tree one
    mkdir -p "one/$path"
    rmdir "one/$path"
    cp -a "odd/$path" "one/$path"
    run "$fatyngu" pack one made.mbtiles --strict
    status 1
    told="1 entry is passed over, which is no file ZOOM/COLUMN/ROW.EXTENSION in numbers: $path"
    holds grep -qF "one is refused by --strict: $told" err
    holds [ ! -e made.mbtiles ]
done
# and all of them leave the tiles as they are
cp -a odd/. tree/
run "$fatyngu" pack --scheme xyz -- tree/ made.mbtiles
status 0
says '^fatyngu: tree/: 21 entries are passed over, which are no files ZOOM/COLUMN/ROW.EXTENSION in numbers: .* and 16 more$'
holds [ "$(wc -l <err)" = 1 ]
holds [ "$(tiles_of made.mbtiles)" = "$(tiles_of plain.mbtiles)" ]
# a find that can't tell
instead find <<<'exit 1'
run env PATH="$t/path:$PATH" "$fatyngu" pack tree made.mbtiles --strict
status 1
says "is refused by --strict: what is passed over can't be told, since the command find has no -printf"
run "$fatyngu" pack tree made.mbtiles
status 1
says 'made.mbtiles is there'
ends
