# Cases of tools/check_bin: parts of sets that bin/mbtiles-to-pmtiles converts, and that bin/fatyngu joins again.
# shellcheck disable=SC2034,SC2154

# a set of zooms 0 to 4, some of whose tiles share contents, and what puts and takes away tiles of it
parted_sets() {
    set_of base.mbtiles "with recursive z(v) as (values (0) union all select v + 1 from z where v < 4), n(v) as (values (0) union all select v + 1 from n where v < 255)
        insert into tiles select z.v, n.v % (1 << z.v), n.v >> z.v, case when n.v % 5 < 2 then x'736561' else randomblob(30 + n.v % 40) end from z, n where n.v < 1 << 2 * z.v;
        create unique index tile_index on tiles (zoom_level, tile_column, tile_row);
        insert into metadata values ('name', 'whole'), ('format', 'png'), ('bounds', '-10,-20,30,40'), ('center', '1,2,3')"
    set_of patch.mbtiles "insert into tiles values (4, 3, 4, x'0a0b'), (4, 4, 4, null), (0, 0, 0, null), (5, 9, 9, x'0c');
        create unique index tile_index on tiles (zoom_level, tile_column, tile_row);
        insert into metadata values ('name', 'changed')"
}
# parts_make WORDS..: the four tiles of zoom 1 with what lies below them, and the tile of zoom 0, make the whole
parts_make() {
    rm -f ./*.pmtiles
    run "$convert" "$@" whole.pmtiles
    status 0
    run "$convert" --ids 0 0 "$@" 0.pmtiles
    status 0
    number=1
    for tile in '0 0' '0 1' '1 1' '1 0'; do
        # shellcheck disable=SC2086
        run "$convert" --part 1 $tile "$@" $number.pmtiles
        status 0
        number=$((number + 1))
    done
    run "$fatyngu" join 3.pmtiles 0.pmtiles 1.pmtiles 4.pmtiles 2.pmtiles out.pmtiles
    status 0
    holds cmp -s out.pmtiles whole.pmtiles
    holds nothing_new
}

fresh 'parts of a set, joined'
parted_sets
parts_make base.mbtiles
run "$fatyngu" show 2.pmtiles
prints '^zooms 0 to 4$'
# by ids: half of the tiles of zoom 4, and all others
run "$convert" --ids 0 212 base.mbtiles low.pmtiles
status 0
prints '^tiles 213, '
run "$convert" base.mbtiles --ids 213 6148914691236517204 high.pmtiles
status 0
prints '^tiles 128, '
run "$fatyngu" join low.pmtiles high.pmtiles halves.pmtiles
status 0
holds cmp -s halves.pmtiles whole.pmtiles
# patches are put on the whole set
parts_make --force base.mbtiles patch.mbtiles
run "$fatyngu" show 3.pmtiles
prints '^zooms 1 to 5$'
ends

fresh 'parts of a set that sqlite3 rewrites first, behind a link'
parted_sets
{
    echo "pragma encoding = 'UTF-16le';"
    "$real" base.mbtiles .dump
} | "$real" wide.mbtiles
ln -s wide.mbtiles linked.mbtiles
parts_make linked.mbtiles
run "$convert" base.mbtiles plain.pmtiles
status 0
holds cmp -s plain.pmtiles whole.pmtiles
ends

fresh 'a part without tiles, and the hash of a part'
parted_sets
run "$convert" --ids 341 6148914691236517204 base.mbtiles none.pmtiles
status 0
prints '^tiles 0, contents 0$'
run "$fatyngu" verify none.pmtiles
status 0
prints '^sound '
run "$fatyngu" show none.pmtiles
prints '^zooms 0 to 4$'
run "$convert" --hash base.mbtiles whole.pmtiles
hash=$(grep '^aggregate ' out)
run "$convert" --hash --part 1 0 0 base.mbtiles part.pmtiles
status 0
holds [ "$(grep '^aggregate ' out)" = "$hash" ]
run "$convert" --force --part 1 0 0 base.mbtiles patch.mbtiles patched.pmtiles
status 0
holds [ -z "$(grep '^aggregate ' out)" ]
# a part is refused where its set is
"$real" base.mbtiles "insert into metadata values ('agg_tiles_hash', 'ABC')"
run "$convert" --verify --ids 0 0 base.mbtiles wrong.pmtiles
status 1
holds [ ! -e wrong.pmtiles ]
run "$convert" --ids 0 0 base.mbtiles part.pmtiles
status 1
says 'part.pmtiles is there'
ends

fresh 'a part of a set that is held in memory'
parted_sets
"$real" base.mbtiles 'pragma auto_vacuum = full; vacuum'
parts_make base.mbtiles
ends

fresh 'words that name no part'
set_of a.mbtiles "$one"
for words in '--part 1 2 0' '--part 1 0 2' '--part 32 0 0' '--part 1 0 x' '--ids 5 4' '--ids 0 6148914691236517205' '--ids 0 0 --ids 1 1' '--part 0 0 0 --ids 1 1'; do
    # shellcheck disable=SC2086
    run "$convert" $words a.mbtiles made.pmtiles
    status 2
    says '^usage: \|: usage: '
done
for words in '--part 0 0' '--part 0' '--part' '--ids 0' '--ids'; do
    # shellcheck disable=SC2086
    run "$convert" a.mbtiles made.pmtiles $words
    status 2
    says 'usage: '
done
run "$convert" --by-script --ids 0 0 a.mbtiles made.pmtiles
status 2
says 'takes whole sets alone'
holds [ ! -e made.pmtiles ]
run "$fatyngu" convert --ids 0 0 a.mbtiles made.pmtiles
status 0
prints '^tiles 1, contents 1$'
ends
