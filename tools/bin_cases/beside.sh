# Cases of tools/check_bin: files beside those that the converter reads and writes: the log of a set, other programs
# that write it, what has the name of the archive, and odd names.
# shellcheck disable=SC2034,SC2154

program=$here/crates/mbtiles_to_pmtiles_program/out/mbtiles_to_pmtiles_program
names='create table metadata (name text, value text)'
# beside SQL: a conversion while another program has done the SQL and holds the file
beside() {
    (echo "$1"; sleep 12) | "$real" a.mbtiles &
    sleep 2
    run "$convert" a.mbtiles made.pmtiles
    kill %% 2>/dev/null
    wait
}

# What stands beside a file, and what others do with it.
fresh 'rows that stand in the log of a file'
"$real" b.mbtiles "pragma journal_mode = wal; $names; create table tiles ($columns); insert into tiles values (0, 0, 0, x'09')" >/dev/null
(echo "pragma wal_autocheckpoint = 0; delete from tiles; $three;"; sleep 3) | "$real" b.mbtiles >/dev/null &
sleep 1
cp b.mbtiles a.mbtiles
[ ! -e b.mbtiles-wal ] || cp b.mbtiles-wal a.mbtiles-wal
wait
holds [ -s a.mbtiles-wal ]
run "$convert" a.mbtiles made.pmtiles
whole_or_refused
ends

fresh 'a set that another program has locked and not written yet'
set_of a.mbtiles "$three"
beside 'begin exclusive;'
status 0
prints '^tiles 3,'
ends

fresh 'a set that another program writes'
set_of a.mbtiles "with recursive n(v) as (values (0) union all select v + 1 from n where v < 1999) insert into tiles select 6, v % 64, v / 64, zeroblob(1000) from n"
beside 'pragma cache_size = 2; begin exclusive; update tiles set tile_data = zeroblob(900);'
status 1
says 'a.mbtiles is written by another program'
holds [ ! -e made.pmtiles ]
ends

fresh 'a set that changes between two statements'
set_of a.mbtiles "create unique index t on tiles (zoom_level, tile_column, tile_row);
    with recursive n(v) as (values (0) union all select v + 1 from n where v < 1999) insert into tiles select 6, v % 64, v / 64, zeroblob(100) from n"
(n=0; while [ ! -e done ] && [ $n -lt 400 ]; do n=$((n + 1)); "$real" a.mbtiles ".timeout 2000" "update tiles set tile_data = cast('$n' || hex(zeroblob(50)) as blob)"; done) >/dev/null 2>&1 &
taken=0
for _ in 1 2 3 4 5 6 7 8 9 10 11 12; do
    run "$convert" --overwrite a.mbtiles made.pmtiles
    case $got in
    0) prints '^tiles 2000, contents 1$' && taken=$((taken + 1)) ;;
    1) says 'a.mbtiles \(is written\|changed\)' ;;
    *) problem="$problem; status $got" ;;
    esac
done
: >done
wait
run "$convert" --overwrite a.mbtiles made.pmtiles
whole 2000 1
ends

# The place of the archive.
fresh 'places that take no archive'
set_of a.mbtiles "$three"
mkdir folder
run "$convert" a.mbtiles none/made.pmtiles
status 6
says 'none/made.pmtiles: the file can.t be made: No such file'
run "$convert" a.mbtiles folder
status 1
says 'folder is there'
run "$convert" --overwrite a.mbtiles folder
status 1
says 'folder is no regular file'
ln -s nowhere dangling
run "$convert" a.mbtiles dangling
status 1
says 'dangling is there'
ln -s a.mbtiles link
run "$convert" --overwrite a.mbtiles link
status 1
says 'one of the sets'
mkdir made.pmtiles.new
run "$convert" a.mbtiles made.pmtiles
status 1
says 'made.pmtiles.new is there'
holds [ -d made.pmtiles.new ]
rmdir made.pmtiles.new
echo before >made.pmtiles
run "$convert" a.mbtiles a.mbtiles made.pmtiles
status 1
holds [ "$(cat made.pmtiles)" = before ]
run "$convert" --overwrite a.mbtiles a.mbtiles made.pmtiles
status 1
says 'a.mbtiles is refused: .*--force'
holds [ "$(cat made.pmtiles)" = before ]
run "$convert" --overwrite --force a.mbtiles a.mbtiles made.pmtiles
whole 3 2
holds nothing_new
ends

fresh 'names of files with dashes and other signs'
set_of ./-dash.mbtiles "$three"
run "$convert" -dash.mbtiles made.pmtiles
status 0
run "$convert" --overwrite -- -dash.mbtiles -made.pmtiles
status 0
holds [ -s ./-made.pmtiles ]
set_of "it's 100%?#.mbtiles" "$three"
run "$convert" "it's 100%?#.mbtiles" "it's 100%?#.pmtiles"
status 0
holds cmp -s made.pmtiles "it's 100%?#.pmtiles"
run "$program" -dash.mbtiles made.pmtiles
status 2
says '^mbtiles-to-pmtiles: usage: mbtiles-to-pmtiles '
cp ./-dash.mbtiles $'caf\xe9.mbtiles'
run "$convert" $'caf\xe9.mbtiles' made.pmtiles
status 2
says "^mbtiles-to-pmtiles: a word isn't text in UTF-8"
run "$convert" --by-script $'caf\xe9.mbtiles' latin.pmtiles
status 0
holds same latin.pmtiles ./-dash.mbtiles
set_of "two
lines.mbtiles" "$three"
run "$convert" "two
lines.mbtiles" "two
lines.pmtiles"
status 0
holds cmp -s -- -made.pmtiles "two
lines.pmtiles"
ends

fresh 'lines that find no room'
set_of a.mbtiles "$three"
for where in '>/dev/full' '>&-'; do
    rm -f made.pmtiles
    run bash -c "exec \"\$0\" a.mbtiles made.pmtiles $where" "$convert"
    status 5
    says "can't be written"
    holds same made.pmtiles a.mbtiles
done
ends
