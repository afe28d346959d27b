# Cases of tools/check_bin: parts of archives that bin/fatyngu extract cuts out by boxes. Which tiles a box has is
# worked out by Python from the degrees of each tile.
# shellcheck disable=SC2034,SC2154

program=$here/crates/fatyngu_program/out/fatyngu_program
# box_tiles WORDS..: the part has the tiles of the boxes, as many as the last word says
box_tiles() {
    python3 "$top/tools/checks/box_tiles.py" "${@:1:$#-1}" >boxed 2>&1 || { problem="$problem; $(tail -n 1 boxed | cut -c1-200)"; return; }
    [ "$(cat boxed)" = "${*: -1}" ] || problem="$problem; $(cat boxed) tiles and not ${*: -1}"
}
is_quiet() { [ ! -s out ] && [ ! -s err ]; }
# an archive of all tiles of zooms 0 to 6, with contents of their own
wide=$room/wide.pmtiles
if [ ! -e "$wide" ]; then
    set_of "$room/wide.mbtiles" "with recursive z(v) as (values (0) union all select v + 1 from z where v < 6), n(v) as (values (0) union all select v + 1 from n where v < 4095)
        insert into tiles select z.v, n.v % (1 << z.v), n.v >> z.v, cast(z.v || '-' || n.v || '-' || hex(randomblob(40)) as blob) from z, n where n.v < 1 << 2 * z.v;
        insert into metadata values ('name', 'wide'), ('format', 'png'), ('minzoom', '0'), ('maxzoom', '6')"
    "$bin/mbtiles-to-pmtiles" "$room/wide.mbtiles" "$wide" >/dev/null 2>&1
fi

# extracts TILES LEAST GREATEST WORDS.. -- [BOX ..]: what the words extract has the tiles of the boxes, and is sound
extracts() {
    local count=$1 least=$2 greatest=$3 words=()
    shift 3
    while [ "$1" != -- ]; do
        words+=("$1")
        shift
    done
    shift
    rm -f part.pmtiles
    run "$fatyngu" extract "$wide" part.pmtiles "${words[@]}"
    status 0
    holds is_quiet
    box_tiles "$wide" part.pmtiles "$least" "$greatest" "$@" "$count"
    run "$fatyngu" verify part.pmtiles
    status 0
    prints '^sound '
    holds nothing_new
}
if command -v python3 >/dev/null; then
    fresh 'parts by boxes of degrees'
    extracts 26 0 30 --bbox -10.5,35,3,44 -- -10.5,35,3,44
    extracts 44 0 30 --bbox -10.5,35,3,44 --bbox 0,40,20,50 -- -10.5,35,3,44 0,40,20,50
    extracts 47 0 30 --bbox 170,-20,-170,10 -- 170,-20,-170,10
    extracts 25 0 30 --bbox 180,-5,-180,5 -- 180,-5,-180,5
    extracts 10 2 4 --minzoom 2 --maxzoom 4 --bbox -10.5,35,3,44 -- -10.5,35,3,44
    extracts 411 0 30 --bbox 0,0,90,66 -- 0,0,90,66
    extracts 10 0 30 --bbox 10,-90,20,-86 -- 10,-90,20,-86
    extracts 5461 0 30 --bbox -180,-90,180,90 -- -180,-90,180,90
    extracts 85 0 3 --maxzoom 3 --
    extracts 1 0 0 --maxzoom 0 --bbox 1,1,1,1 -- 1,1,1,1
    # boxes of columns and rows beside zooms, which bring no tile of another place
    for words in "--minzoom 2" "--maxzoom 3" "--minzoom 3 --maxzoom 3"; do
        # shellcheck disable=SC2086
        run "$fatyngu" extract "$wide" part.pmtiles --overwrite $words '3 2 1 4 3'
        status 0
        run "$fatyngu" show part.pmtiles --entries
        holds [ "$(cut -d' ' -f2 out | sort | tr '\n' ' ')" = '3/2/1 3/2/2 3/2/3 3/3/1 3/3/2 3/3/3 3/4/1 3/4/2 3/4/3 ' ]
        cp part.pmtiles first.pmtiles
        # shellcheck disable=SC2086
        run "$fatyngu" extract "$wide" part.pmtiles '3 2 1 4 3' $words --overwrite
        status 0
        holds cmp -s first.pmtiles part.pmtiles
    done
    # a tile and its descendants, which have the same archive by the other words
    run "$fatyngu" extract "$wide" part.pmtiles --tile 2/1/1 --minzoom 1 --overwrite
    status 0
    run "$fatyngu" extract "$wide" other.pmtiles 2/1/1 6
    status 0
    holds cmp -s part.pmtiles other.pmtiles
    extracts 357 2 6 --tile 2/1/1 --bbox 10,10,20,20 --minzoom 2 -- -89.9999,0.0001,-0.0001,66.5 10,10,20,20
    # no tile lies in the box
    set_of one.mbtiles "insert into tiles values (6, 0, 0, x'01'); insert into metadata values ('format', 'png')"
    run "$bin/mbtiles-to-pmtiles" one.mbtiles one.pmtiles
    run "$fatyngu" extract one.pmtiles none.pmtiles --bbox 10,10,20,20
    status 0
    box_tiles one.pmtiles none.pmtiles 0 30 10,10,20,20 0
    run "$fatyngu" verify none.pmtiles
    status 0
    # paths that begin with a dash
    cp one.pmtiles ./-one.pmtiles
    run "$fatyngu" extract --bbox -180,-90,-170,0 -- -one.pmtiles -part.pmtiles
    status 0
    box_tiles one.pmtiles ./-part.pmtiles 0 30 -180,-90,-170,0 1
    ends

    fresh 'boxes that are none'
    # refuses WORDS.. -- TEXT: these words are refused so, and nothing is written
    refuses() {
        run "$fatyngu" extract "$wide" part.pmtiles "${@:1:$#-2}"
        status 2
        says "^fatyngu: .*${*: -1}"
        holds [ ! -s out ]
        holds [ ! -e part.pmtiles ]
    }
    for word in 1,2,3 a,2,3,4 1,2,3,4,5 1,2,3,nan 1,2,inf,4 1,,3,4 ' 1,2,3,4' 1e0,2,3,4; do
        refuses --bbox "$word" -- 'no four numbers of degrees; give WEST,SOUTH,EAST,NORTH'
    done
    refuses --bbox -180.1,2,3,4 -- 'longitudes lie between -180 and 180'
    refuses --bbox 1,2,181,4 -- 'longitudes lie between -180 and 180'
    refuses --bbox 1,-91,3,4 -- 'latitudes lie between -90 and 90'
    refuses --bbox 1,2,3,90.5 -- 'latitudes lie between -90 and 90'
    refuses --bbox 1,5,3,4 -- 'south is above its north; give WEST,SOUTH,EAST,NORTH in this order'
    refuses --bbox 1,2,3,4 --minzoom 5 --maxzoom 4 -- '--minzoom 5 is above --maxzoom 4; give'
    refuses --bbox 1,2,3,4 --maxzoom 31 -- '--maxzoom 31: this is no zoom; give a number from 0 to 30'
    refuses --bbox 1,2,3,4 --minzoom x -- '--minzoom x: this is no zoom'
    refuses --minzoom 4 '3 2 1 4 3' -- "the box '3 2 1 4 3' has none of the zooms 4 to 30"
    refuses '3 2 1 4 3' --bbox 1,2,3,4 --maxzoom 2 -- "the box '3 2 1 4 3' has none of the zooms 0 to 2"
    refuses --tile 1/2/0 -- '--tile 1/2/0: this is no tile; give Z/X/Y'
    refuses --tile 31/0/0 -- 'this is no tile'
    refuses --tile 5/0/0 --maxzoom 4 -- 'its zoom is above --maxzoom 4'
    refuses --bbox 1,2,3,4 --max-tiles -1 -- 'usage: fatyngu extract'
    refuses --bbox -- 'usage: fatyngu extract'
    refuses --minzoom 1 --minzoom 1 -- 'usage: fatyngu extract'
    refuses --box 1,2,3,4 -- 'usage: fatyngu extract'
    refuses --overwrite -- 'usage: fatyngu extract'
    # shellcheck disable=SC2046
    refuses $(printf -- '--bbox 1,2,3,4 %.0s' $(seq 130)) -- 'more than 4000 boxes'
    run "$fatyngu" extract "$wide" part.pmtiles --bbox 1,2,3,4 --minzoom 7
    status 1
    says 'has the zooms 0 to 6, of which there is no box'
    ends

    fresh 'copies of boxes'
    # the tiles of the set whose lower left corner lies in a box
    cat >corners.py <<PYTHON
import sqlite3, sys
sys.path.append('$top/tools/checks')
from box_tiles import latitude, longitude
west, south, east, north = map(float, sys.argv[2].split(','))
for z, x, y, data in sqlite3.connect(sys.argv[1]).execute('select zoom_level, tile_column, tile_row, hex(tile_data) from tiles order by 1, 2, 3'):
    if west <= longitude(x, z) <= east and south <= latitude(2 ** z - y, z) <= north:
        print(z, x, y, data, sep='|')
PYTHON
    for box in -10.5,35,3,44 -100.5,-60.5,90.5,70 -179.9,10,-179.8,10; do
        rm -f part.mbtiles
        run "$fatyngu" copy "$places" part.mbtiles --bbox $box --copy tiles
        status 0
        python3 corners.py "$places" $box >wanted
        holds [ "$("$real" part.mbtiles 'select zoom_level, tile_column, tile_row, hex(tile_data) from tiles order by 1, 2, 3')" = "$(cat wanted)" ]
    done
    for words in '--bbox 10,35,3,44' '--bbox 1,2,3' '--bbox' '--bbox 1,2,3,4 --bbox 1,2,3,4' '--box 1,2,3,4'; do
        # shellcheck disable=SC2086
        run "$fatyngu" copy "$places" other.mbtiles $words
        status 2
        says '^fatyngu: '
        holds [ ! -e other.mbtiles ]
    done
    for word in '0 0 1073741824 0' '1 0 0 0' '0 1 0 0' '0 0 0' ''; do
        run "$program" copy "$places" other.mbtiles --box "$word"
        status 2
        holds [ ! -e other.mbtiles ]
    done
    ends
else
    skips 'the command python3 is missing, so no boxes of degrees are tried'
fi

fresh 'parts by boxes of columns and rows'
run "$fatyngu" extract "$wide" part.pmtiles '3 2 1 4 3' '3 4 3 5 3' '5 0 0 0 0'
status 0
holds is_quiet
run "$fatyngu" show part.pmtiles --entries
holds [ "$(cut -d' ' -f2 out | sort | tr '\n' ' ')" = '3/2/1 3/2/2 3/2/3 3/3/1 3/3/2 3/3/3 3/4/1 3/4/2 3/4/3 3/5/3 5/0/0 ' ]
run "$fatyngu" show part.pmtiles
prints '^zooms 3 to 5$'
for place in '3 2 1' '5 0 0'; do
    # shellcheck disable=SC2086
    "$fatyngu" tile "$wide" $place >tile
    # shellcheck disable=SC2086
    run "$fatyngu" tile part.pmtiles $place
    holds cmp -s out tile
done
for word in '3 2 1 4' '3 2 1 4 3 3' '3  2 1 4 3' '3 2 1 8 3' '3 4 1 2 3' '3 2 3 4 1' '31 0 0 0 0' '3 02 1 4 3' '3 a 1 4 3' '3 2 1 4 -3' ' 3 2 1 4 3' '3 2 1 4 3 '; do
    run "$program" extract "$wide" other.pmtiles '3 2 1 4 3' "$word"
    status 2
    says '^fatyngu: usage: fatyngu extract IN.pmtiles OUT.pmtiles BOX'
    holds [ ! -e other.pmtiles ]
done
for words in 'extract a b' 'extract a' 'extract a b --max-tiles 1' 'extract a b c --max-tiles' 'extract a b c --bbox 1'; do
    # shellcheck disable=SC2086
    run "$program" $words
    status 2
done
before=$(cksum part.pmtiles)
run "$fatyngu" extract "$wide" part.pmtiles '0 0 0 0 0'
status 1
says 'part.pmtiles is there'
holds [ "$(cksum part.pmtiles)" = "$before" ]
run "$fatyngu" extract "$wide" part.pmtiles '6 0 0 9 9' --overwrite --max-tiles 99
status 1
says 'more than 99 tiles; --max-tiles gives a greater limit'
holds [ "$(cksum part.pmtiles)" = "$before" ]
run "$fatyngu" extract "$wide" part.pmtiles '6 0 0 9 9' --overwrite --max-tiles 100
status 0
run "$fatyngu" show part.pmtiles
prints '^addressed tiles 100$'
ln part.pmtiles second.pmtiles
run "$fatyngu" extract part.pmtiles second.pmtiles '0 0 0 0 0' --overwrite
status 1
says 'are one file'
run "$fatyngu" extract "$places" other.pmtiles '0 0 0 0 0'
status 1
says 'is a set; fatyngu convert'
run "$fatyngu" extract missing other.pmtiles '0 0 0 0 0'
status 3
says 'missing: No such file'
head -c 2000 "$wide" >cut.pmtiles
run "$fatyngu" extract cut.pmtiles other.pmtiles '0 0 0 0 0'
status 1
says 'cut.pmtiles: '
run "$fatyngu" extract "$wide" none/other.pmtiles '0 0 0 0 0'
status 6
says "the file can't be made"
# sides that are too long for an archive that says deep zooms
run "$fatyngu" extract "$wide" deep.pmtiles 0/0/0 30
status 0
run "$fatyngu" extract deep.pmtiles other.pmtiles '23 1 1 8388606 8388606' '24 1 1 9000000 9000000'
status 1
says 'more than 20000000 tiles lie along the sides of the boxes; give smaller ones'
run "$fatyngu" extract deep.pmtiles other.pmtiles '30 0 0 1073741823 1073741823'
status 0
holds nothing_new
ends

if [ "$(id -u)" = 0 ] && mkdir -p "$room/small" && mount -t tmpfs -o size=200k none "$room/small" 2>/dev/null; then
    fresh 'a part on a full disk'
    run "$fatyngu" extract "$wide" "$room/small/part.pmtiles" '0 0 0 0 0'
    status 0
    before=$(cksum "$room/small/part.pmtiles")
    for flag in '' --overwrite; do
        # shellcheck disable=SC2086
        run "$fatyngu" extract "$wide" "$room/small/$([ -z "$flag" ] && echo new || echo part).pmtiles" '6 0 0 63 63' $flag
        status 6
        says "the file can't be written: No space left"
        holds [ "$(ls "$room/small")" = part.pmtiles ]
        holds [ "$(cksum "$room/small/part.pmtiles")" = "$before" ]
    done
    ends
    umount "$room/small"
else
    skips 'nothing can be mounted here, so a part on a full disk is not tried'
fi

fresh 'extractions that are killed'
area=('6 0 0 40 63' '5 0 0 31 31')
! command -v python3 >/dev/null || area=(--bbox -180,-90,50,90)
"$fatyngu" extract "$wide" old.pmtiles '2 1 1 2 2'
started=$(date +%s%N)
run "$fatyngu" extract "$wide" new.pmtiles "${area[@]}"
status 0
length=$((($(date +%s%N) - started) / 1000000))
for _ in $(seq 25); do
    cp old.pmtiles over.pmtiles
    rm -f fresh.pmtiles
    for out in over fresh; do
        "$fatyngu" extract "$wide" $out.pmtiles "${area[@]}" --overwrite >/dev/null 2>&1 </dev/null &
        delay=$((RANDOM % (length + length / 4 + 1)))
        wait_or_kill $! "$((delay / 1000)).$(printf %03d $((delay % 1000)))"
    done
    holds eval 'cmp -s over.pmtiles old.pmtiles || cmp -s over.pmtiles new.pmtiles'
    holds eval '[ ! -e fresh.pmtiles ] || cmp -s fresh.pmtiles new.pmtiles'
done
for out in over fresh; do
    run "$fatyngu" extract "$wide" $out.pmtiles "${area[@]}" --overwrite
    status 0
    holds cmp -s $out.pmtiles new.pmtiles
done
holds nothing_new
ends
