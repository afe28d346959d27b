# Cases of tools/check_bin: the subcommands of bin/fatyngu that look into a set, check its hash or write its metadata.
# What the set has is asked of sqlite3, or worked out by Python.
# shellcheck disable=SC2034,SC2059,SC2154

program=$here/crates/fatyngu_program/out/fatyngu_program

fresh 'a set by its zooms, and its hash'
run "$fatyngu" summary "$places"
status 0
{
    echo 'layout flat'
    echo 'zoom tiles bytes least greatest'
    ask "$places" "select zoom_level || ' ' || count(*) || ' ' || sum(length(tile_data)) || ' ' || min(length(tile_data)) || ' ' || max(length(tile_data)) from tiles group by zoom_level order by zoom_level"
    ask "$places" "select 'all ' || count(*) || ' ' || sum(length(tile_data)) || ' ' || min(length(tile_data)) || ' ' || max(length(tile_data)) from tiles"
} >wanted
holds cmp -s out wanted
run "$fatyngu" show "$places"
holds cmp -s out wanted
run "$fatyngu" hash "$places"
status 0
! command -v python3 >/dev/null || holds [ "$(cat out)" = "$("$top/tools/checks/aggregate_hash.py" "$places")" ]
run "$fatyngu" validate "$places"
status 1
says 'fatyngu hash --update'
run "$fatyngu" validate "$places" --agg-hash off
status 0
cp "$places" a.mbtiles
run "$fatyngu" hash --update a.mbtiles
status 0
holds [ "$(ask a.mbtiles "select value from metadata where name = 'agg_tiles_hash'")" = "$(cat out)" ]
holds [ "$(tiles_of a.mbtiles)" = "$(tiles_of "$places")" ]
holds is_whole a.mbtiles
run "$fatyngu" validate a.mbtiles
status 0
prints '^valid'
"$real" a.mbtiles "update tiles set tile_data = x'00' where zoom_level = 0"
run "$fatyngu" validate a.mbtiles
status 1
says 'aggregate hash mismatch'
run "$fatyngu" validate a.mbtiles --agg-hash update
status 0
run "$fatyngu" validate a.mbtiles
status 0
holds no_rest
ends

fresh 'rows that would be left out'
set_of a.mbtiles "$one; insert into tiles values (1, 5, 0, x'02'); insert into metadata values ('name', 'a')"
before=$(cksum a.mbtiles)
for words in 'hash a.mbtiles' 'validate a.mbtiles --agg-hash off' 'copy a.mbtiles b.mbtiles' 'unpack a.mbtiles b' 'meta set a.mbtiles name b'; do
    # shellcheck disable=SC2086
    run "$fatyngu" $words
    status 1
    says '1 outside the grid'
    says 'is refused'
    holds [ ! -e b.mbtiles ]
    holds [ ! -e b ]
done
run "$fatyngu" summary a.mbtiles
status 0
says '1 outside the grid'
holds [ "$(cksum a.mbtiles)" = "$before" ]
ends

fresh 'metadata that is read and written'
cp "$places" a.mbtiles
chmod 640 a.mbtiles
run "$fatyngu" meta get a.mbtiles name
status 0
holds [ "$(cat out)" = places ]
run "$fatyngu" meta get a.mbtiles nothing
status 1
says 'no text under nothing'
run "$fatyngu" meta set a.mbtiles bounds -180,-85,180,85
status 0
holds [ ! -s out ]
holds [ ! -s err ]
holds [ "$(ask a.mbtiles "select value from metadata where name = 'bounds'")" = -180,-85,180,85 ]
holds [ "$(stat -c %a a.mbtiles)" = 640 ]
holds [ "$(tiles_of a.mbtiles)" = "$(tiles_of "$places")" ]
run "$fatyngu" meta set a.mbtiles -- legend '--é
two "lines"'
status 0
run "$fatyngu" meta get a.mbtiles legend
holds [ "$(cat out)" = '--é
two "lines"' ]
run "$fatyngu" meta all a.mbtiles
status 0
! command -v python3 >/dev/null || holds python3 -c "
import json, sqlite3
assert json.load(open('out')) == dict(sqlite3.connect('a.mbtiles').execute('select name, value from metadata'))"
run "$fatyngu" meta set a.mbtiles legend
status 0
run "$fatyngu" meta get a.mbtiles legend
status 1
# a table that no set has, a link, and names that end nowhere
"$real" a.mbtiles "create table more (a); insert into more values ('kept'); create index by_a on more (a)"
mkdir to
ln -s ../a.mbtiles to/link.mbtiles
run "$fatyngu" meta set to/link.mbtiles name linked
status 0
holds [ -L to/link.mbtiles ]
holds [ "$(ask a.mbtiles "select value from metadata where name = 'name'")" = linked ]
holds [ "$(ask a.mbtiles 'select a from more')" = kept ]
holds is_whole a.mbtiles
holds no_rest
ln a.mbtiles second.mbtiles
run "$fatyngu" meta set a.mbtiles name twice
status 6
says 'one name'
rm second.mbtiles
run "$fatyngu" meta set missing.mbtiles name a
status 3
run "$fatyngu" meta set "$described" name a
status 3
says 'no SQLite database'
holds no_rest
ends

fresh 'sets that another program has'
cp "$places" a.mbtiles
mkfifo hold
"$real" a.mbtiles 'begin exclusive' '.read hold' >/dev/null 2>&1 &
other=$!
exec 7>hold
sleep 1
run "$fatyngu" meta set a.mbtiles name a
status 1
says 'locked by another program'
run "$fatyngu" meta get a.mbtiles name
status 0
exec 7>&-
wait $other 2>/dev/null
run "$fatyngu" meta set a.mbtiles name a
status 0
cp a.mbtiles b.mbtiles
"$real" b.mbtiles 'pragma journal_mode = wal' "insert into metadata values ('x', 'y')" '.shell cp b.mbtiles c.mbtiles; cp b.mbtiles-wal c.mbtiles-wal' >/dev/null
before=$(cksum c.mbtiles c.mbtiles-wal)
run "$fatyngu" meta set c.mbtiles name c
status 1
says 'c.mbtiles-wal is there'
holds [ "$(cksum c.mbtiles c.mbtiles-wal)" = "$before" ]
run "$fatyngu" meta get c.mbtiles x
status 0
holds [ "$(cat out)" = y ]
run "$fatyngu" meta set b.mbtiles name b
status 0
holds [ "$(ask b.mbtiles "select value from metadata where name = 'name'; pragma journal_mode")" = "b
wal" ]
ends

fresh 'a set that is verified'
cp "$places" a.mbtiles
run "$fatyngu" verify a.mbtiles
status 0
prints '^valid'
run "$fatyngu" hash --update a.mbtiles
run "$fatyngu" verify a.mbtiles
status 0
"$real" a.mbtiles "update tiles set tile_data = x'00' where zoom_level = 0"
run "$fatyngu" verify a.mbtiles
status 1
says 'aggregate hash mismatch'
# a name that other commands take for an option
mv a.mbtiles ./--a.mbtiles
run "$fatyngu" verify --a.mbtiles
status 1
says 'aggregate hash mismatch'
run "$fatyngu" verify missing.mbtiles
status 6
: >empty
run "$fatyngu" verify empty
status 1
mkdir folder
run "$fatyngu" verify folder
[ "$got" != 0 ] || problem="$problem; a folder is verified"
ends

fresh 'an archive whose header is verified'
# with_bytes FILE AT BYTES: a copy of the file, as other.pmtiles, with other bytes from a place on
with_bytes() {
    cp "$1" other.pmtiles
    printf "$3" | dd of=other.pmtiles bs=1 seek="$2" conv=notrunc status=none
}
# right_header: the archive is sound, and its header says what is so
right_header() {
    run "$fatyngu" verify other.pmtiles
    status 0
    prints '^sound '
    holds [ "$(wc -l <out)" = 1 ]
    holds [ ! -s err ]
}
# wrong_header LINE: it is sound, and this is the first thing that its header says wrong
wrong_header() {
    run "$fatyngu" verify other.pmtiles
    status 1
    prints '^sound '
    prints "^header $1\$"
    holds [ "$(wc -l <out)" = 2 ]
    says 'other.pmtiles: the header is wrong: '
}
"$fatyngu" convert "$places" made.pmtiles >/dev/null 2>&1
cp made.pmtiles other.pmtiles
right_header
with_bytes made.pmtiles 72 '\113'
wrong_header 'addressed tiles 75, found 74'
with_bytes made.pmtiles 72 '\0'
right_header
with_bytes made.pmtiles 80 '\111'
wrong_header 'tile entries 73, found 74'
with_bytes made.pmtiles 88 '\1'
wrong_header 'tile contents 1, found 74'
with_bytes made.pmtiles 100 '\1'
wrong_header 'min zoom 1, found 0'
with_bytes made.pmtiles 101 '\26'
wrong_header 'max zoom 22, found 4'
with_bytes made.pmtiles 39 '\1'
wrong_header 'metadata PastEnd'
with_bytes made.pmtiles 16384 '['
wrong_header 'metadata NotJson'
with_bytes made.pmtiles 16384 '\377'
wrong_header 'metadata NotUtf8'
with_bytes made.pmtiles 32 '\2\0\0\0\0\0\0\0'
printf '[]' | dd of=other.pmtiles bs=1 seek=16384 conv=notrunc status=none
wrong_header 'metadata NotAnObject'
# of several the first
printf '\26' | dd of=other.pmtiles bs=1 seek=101 conv=notrunc status=none
wrong_header 'max zoom 22, found 4'
# the first of two contents behind the second, where the header says that they are clustered and where it doesn't
with_bytes "$described" 134 '\3\1'
wrong_header 'clustered, tile entry 0 at 2 and not at 0'
printf '\0' | dd of=other.pmtiles bs=1 seek=96 conv=notrunc status=none
right_header
# a part says the deepest zoom that was asked for, and else that of the archive
rm other.pmtiles
run "$fatyngu" extract made.pmtiles other.pmtiles 1/0/0 30
wrong_header 'max zoom 30, found 4'
rm other.pmtiles
run "$fatyngu" extract made.pmtiles other.pmtiles 1/0/0
right_header
# one that isn't sound has no line of its header
head -c 100 made.pmtiles >other.pmtiles
run "$fatyngu" verify other.pmtiles
status 1
holds [ "$(cat out)" = 'opening InvalidHeader' ]
run "$program" header other.pmtiles
status 1
holds [ "$(cat out)" = 'opening InvalidHeader' ]
run "$program" header missing.pmtiles
status 6
run "$program" header made.pmtiles
status 0
holds [ ! -s out ]
with_bytes made.pmtiles 101 '\26'
run bash -c 'exec "$0" header other.pmtiles >/dev/full' "$program"
status 5
for words in header 'header a b' 'header a --b'; do
    # shellcheck disable=SC2086
    run "$program" $words
    status 2
done
ends
