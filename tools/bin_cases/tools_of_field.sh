# Cases of tools/check_bin: sets in the tables that the tools of the field make, each as a file alone, through a link,
# with a log of writes beside it, and with a write that was cut off.
# shellcheck disable=SC2034,SC2154

# some 40 tiles, of which several have one content, into a table
rows_of() { echo "with recursive n(v) as (values (0) union all select v + 1 from n where v < 39) insert into $1 (zoom_level, tile_column, tile_row, $2) select 5, v % 8, v / 8, $3 from n"; }
content="cast('content ' || (v % 7) || hex(zeroblob(150 + 10 * (v % 7))) as blob)"
says_of_itself="insert into metadata values ('name', 'field'), ('format', 'png'), ('minzoom', '5'), ('maxzoom', '5')"
# id_of MAKER BYTES: the 64-bit FNV-1a in decimal; a number of 16 digits; the MD5 in capitals; the MD5 in small letters
id_of() {
    case $1 in
    tippecanoe)
        hash=$((0xcbf29ce484222325))
        for byte in $(printf %s "$2" | od -An -v -tu1); do hash=$(((hash ^ byte) * 0x100000001b3)); done
        printf '%u' "$hash"
        ;;
    'a tool whose ids look like digests') printf '%016x' "$(printf %s "$2" | cksum | cut -d' ' -f1)" ;;
    martin-cp* | 'mbtiles, '*) printf %s "$2" | md5sum | cut -d' ' -f1 | tr a-f A-F ;;
    *) printf %s "$2" | md5sum | cut -d' ' -f1 ;;
    esac
}
# id_at MAKER NUMBER: the id of a content, for which node-mbtiles takes the colour of a tile that has only one
id_at() {
    case $1$2 in
    'node-mbtiles, colours0') echo '0,0,255,1' ;;
    *) id_of "$1" "$("$real" :memory: "select $content from (select $2 as v)")" ;;
    esac
}
# rows with such hashes
hashes_by() {
    rows_of tiles_with_hash tile_data "$content"
    for v in 0 1 2 3 4 5 6; do
        echo "; update tiles_with_hash set tile_hash = '$(id_at "$1" $v)' where tile_data = (select $content from (select $v as v))"
    done
}
# contents with such ids, and their places
ids_by() {
    for v in 0 1 2 3 4 5 6; do
        echo "insert into images (tile_data, tile_id) select $content, '$(id_at "$1" $v)' from (select $v as v);"
    done
    rows_of map tile_id "(select tile_id from images where tile_data = $content)"
}
view_of_map="create view tiles as select map.zoom_level as zoom_level, map.tile_column as tile_column, map.tile_row as tile_row, images.tile_data as tile_data from map join images on images.tile_id = map.tile_id"

# tables_of_crate MAKER: the three layouts of the crate mbtiles, by martin-cp or by its own command, which makes STRICT
# tables in newer versions
tables_of_crate() {
    local key='primary key (zoom_level, tile_column, tile_row)' place='zoom_level integer not null, tile_column integer not null, tile_row integer not null' strict=
    case $1 in *strict*) strict=' strict' ;; esac
    echo "pragma page_size = 512; pragma encoding = 'UTF-8'; create table metadata (name text not null primary key, value text)$strict;"
    case $1 in
    *flat-with-hash*) echo "create table tiles_with_hash ($place, tile_data blob, tile_hash text, $key)$strict;
        create view tiles as select zoom_level, tile_column, tile_row, tile_data from tiles_with_hash; $(hashes_by "$1");" ;;
    *flat*) echo "create table tiles ($place, tile_data blob, $key)$strict; $(rows_of tiles tile_data "$content");" ;;
    *) echo "create table map ($place, tile_id text, $key)$strict; create table images (tile_id text not null primary key, tile_data blob)$strict; $view_of_map;
        create view tiles_with_hash as select map.zoom_level as zoom_level, map.tile_column as tile_column, map.tile_row as tile_row, images.tile_data as tile_data, images.tile_id as tile_hash
            from map join images on images.tile_id = map.tile_id; $(ids_by "$1");" ;;
    esac
    echo "$says_of_itself"
}

tables_of() {
    case $1 in
    Planetiler) echo "pragma application_id = 0x4d504258; create table metadata (name text, value text); create unique index name on metadata (name);
        create table tiles_shallow (zoom_level integer, tile_column integer, tile_row integer, tile_data_id integer, primary key (zoom_level, tile_column, tile_row)) without rowid;
        create table tiles_data (tile_data_id integer primary key, tile_data blob);
        create view tiles as select tiles_shallow.zoom_level as zoom_level, tiles_shallow.tile_column as tile_column, tiles_shallow.tile_row as tile_row, tiles_data.tile_data as tile_data
            from tiles_shallow join tiles_data on tiles_shallow.tile_data_id = tiles_data.tile_data_id;
        with recursive n(v) as (values (0) union all select v + 1 from n where v < 6) insert into tiles_data select v, $content from n; $(rows_of tiles_shallow tile_data_id 'v % 7'); $says_of_itself" ;;
    'Planetiler, not compact') echo "pragma application_id = 0x4d504258; create table metadata (name text, value text); create unique index name on metadata (name);
        create table tiles (zoom_level integer, tile_column integer, tile_row integer, tile_data blob, primary key (zoom_level, tile_column, tile_row)) without rowid; $(rows_of tiles tile_data "$content"); $says_of_itself" ;;
    'GDAL, images') echo "pragma application_id = 1297105496; create table metadata (name text, value text);
        create table tiles (zoom_level integer not null, tile_column integer not null, tile_row integer not null, tile_data blob not null, unique (zoom_level, tile_column, tile_row)); $(rows_of tiles tile_data "$content"); $says_of_itself;
        insert into metadata values ('type', 'overlay'), ('version', '1.1'), ('description', 'field'), ('bounds', '-180.0000000,-85,180.0000000,85')" ;;
    'GDAL, vectors') echo "create table metadata (name text, value text); create table tiles (zoom_level integer, tile_column integer, tile_row integer, tile_data blob, unique (zoom_level, tile_column, tile_row));
        $(rows_of tiles tile_data "cast(x'1f8b' || $content as blob)"); insert into metadata values ('format', 'pbf'), ('json', '{\"vector_layers\":[]}'), ('center', '0,0,5'), ('bounds', '-180,-85,180,85'), ('scheme', 'tms')" ;;
    tilemaker) echo "pragma page_size = 65536; create table if not exists metadata (name text, value text, unique (name)); create table if not exists tiles (zoom_level integer, tile_column integer, tile_row integer, tile_data blob, unique (zoom_level, tile_column, tile_row));
        $(rows_of tiles tile_data "$content"); $says_of_itself" ;;
    tippecanoe | 'a tool whose ids look like digests') echo "create table metadata (name text, value text); create unique index name on metadata (name); create table map (zoom_level integer, tile_column integer, tile_row integer, tile_id text); create table images (tile_data blob, tile_id text);
        create unique index map_index on map (zoom_level, tile_column, tile_row); create unique index images_id on images (tile_id); $view_of_map;
        $(ids_by "$1"); $says_of_itself" ;;
    'tippecanoe, flat') echo "create table metadata (name text, value text); create table tiles (zoom_level integer, tile_column integer, tile_row integer, tile_data blob); $(rows_of tiles tile_data "$content");
        create unique index name on metadata (name); create unique index tile_index on tiles (zoom_level, tile_column, tile_row); $says_of_itself" ;;
    mbutil) echo "create table tiles (zoom_level integer, tile_column integer, tile_row integer, tile_data blob); create table metadata (name text, value text); create table grids (zoom_level integer, tile_column integer, tile_row integer, grid blob);
        create table grid_data (zoom_level integer, tile_column integer, tile_row integer, key_name text, key_json text); create unique index name on metadata (name); create unique index tile_index on tiles (zoom_level, tile_column, tile_row);
        $(rows_of tiles tile_data "$content"); $says_of_itself; analyze" ;;
    MapTiler) echo "create table metadata (name text, value text); create table map (zoom_level integer, tile_column integer, tile_row integer, tile_id text, grid_id text); create table grid_key (grid_id text, key_name text);
        create table keymap (key_name text, key_json text); create table grid_utfgrid (grid_id text, grid_utfgrid blob); create table images (tile_data blob, tile_id text);
        create unique index map_index on map (zoom_level, tile_column, tile_row); create unique index grid_key_lookup on grid_key (grid_id, key_name); create unique index keymap_lookup on keymap (key_name);
        create unique index grid_utfgrid_lookup on grid_utfgrid (grid_id); create unique index images_id on images (tile_id); create unique index name on metadata (name); $view_of_map;
        create view grids as select map.zoom_level as zoom_level, map.tile_column as tile_column, map.tile_row as tile_row, grid_utfgrid.grid_utfgrid as grid from map join grid_utfgrid on grid_utfgrid.grid_id = map.grid_id;
        $(ids_by "$1"); $says_of_itself" ;;
    martin-cp* | 'mbtiles, '*) tables_of_crate "$1" ;;
    node-mbtiles*) echo "create table map (zoom_level integer, tile_column integer, tile_row integer, tile_id text, grid_id text); create table grid_key (grid_id text, key_name text);
        create table keymap (key_name text, key_json text); create table grid_utfgrid (grid_id text, grid_utfgrid blob); create table images (tile_data blob, tile_id text);
        create table metadata (name text, value text); create table geocoder_data (type text, shard integer, data blob); create unique index map_index on map (zoom_level, tile_column, tile_row);
        create unique index grid_key_lookup on grid_key (grid_id, key_name); create unique index keymap_lookup on keymap (key_name); create unique index grid_utfgrid_lookup on grid_utfgrid (grid_id);
        create unique index images_id on images (tile_id); create unique index name on metadata (name); create index map_grid_id on map (grid_id);
        create index geocoder_type_index on geocoder_data (type); create unique index geocoder_shard_index on geocoder_data (type, shard); $view_of_map;
        create view grids as select map.zoom_level as zoom_level, map.tile_column as tile_column, map.tile_row as tile_row, grid_utfgrid.grid_utfgrid as grid from map join grid_utfgrid on grid_utfgrid.grid_id = map.grid_id;
        create view grid_data as select map.zoom_level as zoom_level, map.tile_column as tile_column, map.tile_row as tile_row, keymap.key_name as key_name, keymap.key_json as key_json
            from map join grid_key on map.grid_id = grid_key.grid_id join keymap on grid_key.key_name = keymap.key_name;
        $(ids_by "$1"); update map set grid_id = 'g' where tile_column < 4; insert into grid_utfgrid values ('g', x'78da'); insert into grid_key values ('g', '1'); insert into keymap values ('1', '{}');
        insert into geocoder_data values ('term', 0, x'00'), ('phrase', 0, x'01'); $says_of_itself" ;;
    esac
}

# equal FILE WORDS..: each tile is that of SQLite, which has no part in it but by --by-script
equal() {
    file=$1
    shift
    before=$PATH
    [ $# -gt 0 ] || { echo 'echo "sqlite3 is run" >&2; exit 1' | instead sqlite3; PATH=$t/path:$PATH; }
    run "$convert" --overwrite "$@" "$file" made.pmtiles
    PATH=$before
    # ids of 16 or 32 digits that are no digests are refused, in words that name the way that takes them
    if [ "$maker $*" = 'a tool whose ids look like digests ' ]; then
        status 1
        says '--by-script takes it without its hashes'
        return
    fi
    status 0
    prints '^tiles 40, contents 7$'
    holds same made.pmtiles whole.mbtiles
    holds same_has '40 5 5 '
}

for maker in Planetiler 'Planetiler, not compact' 'GDAL, images' 'GDAL, vectors' tilemaker tippecanoe 'a tool whose ids look like digests' 'tippecanoe, flat' mbutil MapTiler \
    'martin-cp, flat' 'martin-cp, flat-with-hash' 'martin-cp, normalized' 'mbtiles, strict flat' 'mbtiles, strict flat-with-hash' 'mbtiles, strict normalized' node-mbtiles 'node-mbtiles, colours'; do
    sql=$(tables_of "$maker")
    fresh "a file as $maker makes it"
    "$real" whole.mbtiles "$sql" >/dev/null
    equal whole.mbtiles
    equal whole.mbtiles --by-script
    case $maker in
    martin-cp* | 'mbtiles, '*)
        if command -v python3 >/dev/null; then
            # the hashes that stand in it, of single tiles and of all, are those of the tiles
            "$real" whole.mbtiles "insert into metadata values ('agg_tiles_hash', '$("$top/tools/checks/aggregate_hash.py" whole.mbtiles)')"
            equal whole.mbtiles --verify
            equal whole.mbtiles --verify --by-script
        fi
        ;;
    esac
    ends
    fresh "a file as $maker makes it, through a link"
    mkdir beyond
    "$real" whole.mbtiles "$sql" >/dev/null
    mv whole.mbtiles beyond/
    ln -s beyond/whole.mbtiles whole.mbtiles
    ln -s whole.mbtiles again.mbtiles
    equal again.mbtiles
    equal again.mbtiles --by-script
    ends
    fresh "a file as $maker makes it, whose rows stand in the log"
    mkdir beyond
    printf '%s\n' 'pragma page_size = 1024; pragma journal_mode = wal; pragma wal_autocheckpoint = 0;' "$sql;" '.shell cp b.mbtiles beyond/whole.mbtiles && cp b.mbtiles-wal beyond/whole.mbtiles-wal' | "$real" b.mbtiles >/dev/null
    holds [ -s beyond/whole.mbtiles-wal ]
    ln -s beyond/whole.mbtiles a.mbtiles
    cp beyond/whole.mbtiles beyond/whole.mbtiles-wal .
    for file in beyond/whole.mbtiles a.mbtiles; do
        equal $file
        equal $file --by-script
    done
    ends
    fresh "a file as $maker makes it, whose last write was cut off"
    mkdir beyond
    "$real" b.mbtiles "$sql" >/dev/null
    printf '%s\n' 'pragma cache_size = 2; pragma cache_spill = 1; begin exclusive; create table spilled (x); insert into spilled values (zeroblob(300000));' \
        "update metadata set value = 'cut';" '.shell cp b.mbtiles beyond/whole.mbtiles && cp b.mbtiles-journal beyond/whole.mbtiles-journal' | "$real" b.mbtiles >/dev/null
    holds [ -s beyond/whole.mbtiles-journal ]
    ln -s beyond/whole.mbtiles a.mbtiles
    for file in beyond/whole.mbtiles a.mbtiles; do
        run "$convert" $file made.pmtiles
        status 1
        says "$file .*journal"
        run "$convert" --by-script $file made.pmtiles
        status 1
        says "$file .*journal"
    done
    holds [ ! -e made.pmtiles ]
    ends
done

# The subcommands of fatyngu on such sets, each answer held against sqlite3 and Python.
is_sound() { [ "$(ask "$1" 'pragma integrity_check')" = ok ]; }
sum_of_tiles() { tiles_of "$1" | cksum; }
# what is read of a set
reads_set() {
    run "$fatyngu" summary a.mbtiles
    status 0
    prints "^5 $(ask a.mbtiles "select count(*) || ' ' || sum(length(tile_data)) || ' ' || min(length(tile_data)) || ' ' || max(length(tile_data)) from tiles")\$"
    run "$fatyngu" hash a.mbtiles
    status 0
    ! command -v python3 >/dev/null || holds [ "$(cat out)" = "$("$top/tools/checks/aggregate_hash.py" a.mbtiles)" ]
    run "$fatyngu" validate a.mbtiles --agg-hash off
    status 0
    for place in '0 31' '7 31' '3 29' '7 27'; do
        run "$fatyngu" tile a.mbtiles 5 "${place% *}" "${place#* }"
        status 0
        holds [ "$(od -An -v -tx1 out | tr -d ' \n' | tr a-f A-F)" = "$(ask a.mbtiles "select hex(tile_data) from tiles where tile_column = ${place% *} and tile_row = 31 - ${place#* }")" ]
    done
    run "$fatyngu" tile a.mbtiles 5 8 31
    status 1
    run "$fatyngu" meta get a.mbtiles format
    status 0
    holds [ "$(cat out)" = "$(ask a.mbtiles "select value from metadata where name = 'format'")" ]
}
# what is made of it
copies_set() {
    run "$fatyngu" copy a.mbtiles b.mbtiles
    status 0
    holds [ "$(sum_of_tiles b.mbtiles)" = "$(sum_of_tiles a.mbtiles)" ]
    holds is_sound b.mbtiles
    run "$fatyngu" validate b.mbtiles
    status 0
    run "$fatyngu" unpack a.mbtiles files
    status 0
    holds [ "$(find files -type f | wc -l)" = 40 ]
    run "$fatyngu" pack files c.mbtiles
    status 0
    holds [ "$(sum_of_tiles c.mbtiles)" = "$(sum_of_tiles a.mbtiles)" ]
    run "$fatyngu" convert --hash a.mbtiles made.pmtiles
    status 0
    holds same made.pmtiles a.mbtiles
    run "$fatyngu" import made.pmtiles d.mbtiles
    status 0
    holds [ "$(sum_of_tiles d.mbtiles)" = "$(sum_of_tiles a.mbtiles)" ]
    run "$fatyngu" copy --apply-patch change.mbtiles --force a.mbtiles e.mbtiles
    status 0
    holds [ "$(sum_of_tiles e.mbtiles)" = "$1" ]
}
# what is changed in its file
changes_set() {
    run "$fatyngu" meta set a.mbtiles attribution 'two words'
    status 0
    holds [ "$(ask a.mbtiles "select value from metadata where name = 'attribution'")" = 'two words' ]
    run "$fatyngu" hash --update a.mbtiles
    status 0
    run "$fatyngu" validate a.mbtiles
    status 0
    run "$fatyngu" patch a.mbtiles change.mbtiles --force
    status 0
    holds [ "$(sum_of_tiles a.mbtiles)" = "$1" ]
    holds is_sound a.mbtiles
}
for maker in 'GDAL, images' 'GDAL, vectors' tilemaker tippecanoe 'tippecanoe, flat' mbutil MapTiler; do
    fresh "the subcommands on a file as $maker makes it"
    "$real" a.mbtiles "$(tables_of "$maker")" >/dev/null
    set_of change.mbtiles "insert into tiles values (5, 0, 0, null), (5, 1, 0, x'1F8B05'), (6, 1, 1, x'1F8B06')"
    wanted=$({ tiles_of a.mbtiles | grep -v '^5|0|0|\|^5|1|0|'; echo '5|1|0|1F8B05'; echo '6|1|1|1F8B06'; } | sort -t'|' -n -k1,1 -k2,2 -k3,3 | cksum)
    before=$(cksum a.mbtiles)
    reads_set
    copies_set "$wanted"
    holds [ "$(cksum a.mbtiles)" = "$before" ]
    # ids that are no digests can't be made for what is written
    if [ "$maker" = tippecanoe ]; then
        for words in 'meta set a.mbtiles attribution x' 'hash --update a.mbtiles' 'patch a.mbtiles change.mbtiles --force'; do
            # shellcheck disable=SC2086
            run "$fatyngu" $words
            status 6
            says 'fatyngu copy makes a plain set of it'
        done
        holds [ "$(cksum a.mbtiles)" = "$before" ]
    else
        changes_set "$wanted"
    fi
    ends
done
