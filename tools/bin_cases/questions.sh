# What several files of cases of tools/check_bin name, and what they ask of sets and archives:
# tools/check_bin reads this before them.
# shellcheck disable=SC2034,SC2154

fatyngu=$bin/fatyngu
convert=$bin/mbtiles-to-pmtiles
back=$bin/pmtiles-to-mbtiles
places=$top/examples/places.mbtiles
described=$top/crates/fatyngu_program/data/described.pmtiles
one_tile=$top/crates/tile_verify_program/data/one_tile.pmtiles
two_tiles=$top/crates/tile_extract_program/data/two_tiles.pmtiles
columns='zoom_level integer, tile_column integer, tile_row integer, tile_data blob'
three="insert into tiles (zoom_level, tile_column, tile_row, tile_data) values (0, 0, 0, x'01'), (1, 1, 0, x'02'), (1, 0, 1, x'02')"
ask() { "$real" "$1" "$2"; }
tiles_of() { ask "$1" "select zoom_level, tile_column, tile_row, hex(tile_data) from tiles order by 1, 2, 3"; }
is_whole() { [ "$(ask "$1" 'pragma integrity_check; pragma journal_mode')" = "ok
delete" ]; }
md5_of() { printf '%b' "$1" | md5sum | cut -d' ' -f1 | tr a-f A-F; }
nothing_new() { [ -z "$(find . -name '*.new')" ]; }
no_rest() { [ -z "$(find . -name '*.new' -o -name '*-wal' -o -name '*-journal' -o -name '*-shm')" ]; }
served() { python3 "$top/tools/checks/served_tiles.py" "$@"; }
answered() { served "$@" >answered 2>&1 || problem="$problem; $(tail -n 1 answered | cut -c1-200)"; }
# the archive has this many tiles of this many contents, and those of the file
whole() {
    status 0
    prints "^tiles $1, contents $2\$"
    holds same made.pmtiles a.mbtiles
    holds nothing_new
}
# A file is refused or has its tiles in the archive; nothing else may come.
whole_or_refused() {
    case $got in
    0) holds same made.pmtiles a.mbtiles ;;
    1 | 3) holds [ ! -e made.pmtiles ] && says 'a.mbtiles' ;;
    *) problem="$problem; status $got" ;;
    esac
    holds nothing_new
}
