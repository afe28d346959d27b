# The queries that `sets.sh` has sqlite3 answer on an .mbtiles file, which is attached as `s`. Each
# function prints some of them.
# shellcheck disable=SC2154 an expression: the whole number in a column, or null; a text spells one in at most nine
#            digits, without a zero in front
whole() {
    echo "case typeof($1) when 'integer' then $1
        when 'real' then case when $1 = cast($1 as integer) then cast($1 as integer) end
        when 'text' then case when $1 = '0' or $1 glob '[1-9]*' and $1 not glob '*[^0-9]*' and length($1) < 10 then cast($1 as integer) end end"
}

# an expression: a text for a line of words
shown() {
    echo "replace(replace(substr($1, 1, 80), char(10), ' '), char(13), ' ')"
}

in_grid='z between 0 and 30 and x between 0 and (1 << z) - 1 and y between 0 and (1 << z) - 1'
first='(select value from metadata where name = '
is_digest() {
    echo "(length($1) in (16, 32) and typeof($1) = 'text' and $1 not glob '*[^0-9A-Fa-f]*')"
}

# attaches the file $1, with empty tables behind its own for those that it lacks
sql_attach() {
    cat <<SQL
.bail on
.mode list
.headers off
.nullvalue -
.timeout 5000
attach '$(uri "$1")' as s;
attach ':memory:' as none;
create table none.tiles (zoom_level, tile_column, tile_row, tile_data);
create table none.metadata (name, value);
create table none.map (zoom_level, tile_column, tile_row, tile_id);
create table none.images (tile_id, tile_data);
create table none.tiles_with_hash (zoom_level, tile_column, tile_row, tile_data, tile_hash);
SQL
}

# what the facts are taken from, in one read transaction
sql_begin() {
    cat <<SQL
create table if not exists main.kept (z, x, y, filled, primary key (z, x, y)) without rowid;
begin;
select 'none' where not exists (select 1 from s.sqlite_master where lower(name) = 'tiles' and type in ('table', 'view'));
create temp view grid as select z, x, y, cast(d as blob) as d from
    (select $(whole zoom_level) as z, $(whole tile_column) as x, $(whole tile_row) as y, tile_data as d from tiles) where $in_grid;
create temp table twice as select z, x, y, count(*) as n from grid group by z, x, y having n > 1;
create temp table number (name, place, v numeric);
insert into number select given.name, each.key, trim(each.value) from (select 'bounds' as name, $first'bounds' limit 1) as value
        union all select 'center', $first'center' limit 1)) as given,
    json_each(case when json_valid('["' || replace(given.value, ',', '","') || '"]') then '["' || replace(given.value, ',', '","') || '"]' end) as each;
SQL
}

# facts on the tiles
sql_tiles() {
    cat <<SQL
create temp table counted as select count(*) as grid, coalesce(sum(length(d) > 0), 0) as filled, coalesce(sum(substr(d, 1, 2) = x'1f8b'), 0) as gzip,
    min(case when length(d) > 0 then z end) as low, max(case when length(d) > 0 then z end) as high, coalesce(sum(40 + 2 * length(d)), 0) as size from grid;
create temp table total as select count(*) as n from tiles;
select 'count ' || n || ' ' || grid || ' ' || filled || ' ' || gzip from counted, total;
select 'zooms ' || low || ' ' || high from counted where low is not null;
select 'size ' || size from counted;
select 'warn ' || (n - grid) || ' rows outside the grid of zooms 0 to 30 are left out' from counted, total where n > grid and grid > 0;
select 'refuse none of its ' || n || ' rows lies in the grid of zooms 0 to 30' from counted, total where n > 0 and grid = 0;
select 'refuse tile ' || z || '/' || x || '/' || ((1 << z) - 1 - y) || ' (tile_row ' || y || ') is there twice, with different contents' from grid
    where (z, x, y) in (select z, x, y from twice) group by z, x, y having count(distinct coalesce(hex(d), '-')) > 1 limit 1;
select 'warn ' || more || ' rows repeat another one and count once' from (select sum(n - 1) as more from twice) where more > 0;
SQL
}

# facts on the metadata
sql_metadata() {
    special="'format', 'minzoom', 'maxzoom', 'bounds', 'center', 'json', 'scheme', 'hash_algorithm', 'agg_tiles_hash', 'agg_tiles_hash_before_apply', 'agg_tiles_hash_after_apply'"
    cat <<SQL
select 'refuse it needs a script of about ' || (3 * n) || ' bytes for its metadata, more than the $most that the converter takes' from
    (select sum(length(cast(value as blob))) as n from metadata) where 3 * n > $most;
create temp table given as select name, value, typeof(value) as kind from metadata where typeof(name) = 'text' and name <> '';
create temp table named as select name, kind, case when kind in ('integer', 'real') then cast(value as text) else value end as value from given
    where rowid in (select min(rowid) from given group by name);
select 'warn ' || n || ' rows of the metadata have no text for a name, and are left out' from
    (select count(*) as n from metadata where typeof(name) <> 'text' or name = '') where n > 0;
select 'warn the name ' || $(shown name) || ' stands in the metadata more than once; its first value counts' from given group by name having count(*) > 1;
select 'warn the value of ' || $(shown name) || ' in the metadata is no text, and is left out' from named where kind = 'blob';
delete from named where kind = 'blob';
select 'plain ' || hex(name) || ' ' || case when value is null then '-' else hex(value) end from named;
select 'row ' || hex(json_quote(name)) || ' ' || case when value is null then '-' else hex(json_quote(value)) end from named where name not in ($special);
select 'hasjson' from named where name = 'json';
select 'warn json in the metadata is no object, and is left out' from named where name = 'json' and value is not null and not (json_valid(value) and json_type(value) = 'object');
select 'json ' || hex(json_quote(each.key)) || ' ' || hex(case each.type when 'text' then json_quote(each.value) when 'true' then 'true' when 'false' then 'false'
    when 'null' then 'null' else each.value end) from named, json_each(case when json_valid(named.value) and json_type(named.value) = 'object' then named.value end) as each where named.name = 'json';
select 'format ' || hex(value) from named where name = 'format' and value is not null;
create temp table bound as select count(*) as n, sum(typeof(v) in ('integer', 'real')) as numbers, max(case place when 0 then v end) as w, max(case place when 1 then v end) as s,
    max(case place when 2 then v end) as e, max(case place when 3 then v end) as n4 from number where name = 'bounds';
create temp table middle as select count(*) as n, sum(typeof(v) in ('integer', 'real')) as numbers, max(case place when 0 then v end) as lon, max(case place when 1 then v end) as lat,
    max(case place when 2 then v end) as zoom from number where name = 'center';
create temp table good as select (select n = 4 and numbers = 4 and w between -180 and 180 and e between -180 and 180 and s between -90 and 90 and n4 between s and 90 from bound) as bounds,
    (select n in (2, 3) and numbers = n and lon between -180 and 180 and lat between -90 and 90 from middle) as center,
    (select n = 3 and zoom between 0 and 30 and typeof(zoom) = 'integer' from middle) as zoom;
select 'bounds ' || $(tenths w) || ' ' || $(tenths s) || ' ' || $(tenths e) || ' ' || $(tenths n4) from bound, good where bounds;
select 'center ' || $(tenths lon) || ' ' || $(tenths lat) || case when good.zoom then ' ' || middle.zoom else '' end from middle, good where center;
select 'warn the bounds of the metadata are out of range or form, and are left out: ' || $(shown value) from named, good where name = 'bounds' and value is not null and not coalesce(bounds, 0);
select 'warn the center of the metadata is out of range or form, and is left out: ' || $(shown value) from named, good where name = 'center' and value is not null and not coalesce(center, 0);
select 'warn the zoom of the center in the metadata is out of range or form, and is left out: ' || $(shown value) from named, middle, good
    where name = 'center' and center and n = 3 and not coalesce(good.zoom, 0);
select 'warn ' || name || ' ' || $(shown value) || ' of the metadata isn''t that of the tiles, ' || case name when 'minzoom' then low else high end || ', which counts' from named, counted
    where name in ('minzoom', 'maxzoom') and value is not null and low is not null and ($(whole value) is null or $(whole value) <> case name when 'minzoom' then low else high end);
SQL
}

# an expression: a number of degrees as whole ten millionths
tenths() {
    echo "cast(round($1 * 10000000) as integer)"
}

# an expression: whether `tiles` has the same tiles as the rows that a query gives, by their places and contents
are_tiles() {
    echo "(not exists (select z, x, y, d from grid where length(d) > 0 except $1) and not exists ($1 except select z, x, y, d from grid))"
}

# the rows, in the layout $1 where that isn't flat, the stored hashes are digests and its tables have the tiles of
# `tiles`
sql_rows() {
    flat="'row tiles i' || z || ' i' || x || ' i' || y || ' ' || case when d is null then 'n' else 'x' || hex(d) end"
    map="select $(whole zoom_level) as z, $(whole tile_column) as x, $(whole tile_row) as y"
    table=tiles
    case $1 in
    normalized) table=map own="select not exists (select 1 from map where tile_id is not null and not $(is_digest tile_id))
        and not exists (select 1 from images where not $(is_digest tile_id)) and not exists (select 1 from twice)
        and $(are_tiles "select z, x, y, cast(tile_data as blob) from ($map, tile_id as id from map) join images on tile_id = id where $in_grid and length(tile_data) > 0") as ok" ;;
    flat-with-hash) table=tiles_with_hash own="select not exists (select 1 from tiles_with_hash where (tile_hash is null) <> (tile_data is null) or tile_hash is not null and not $(is_digest tile_hash))
        and not exists (select 1 from twice)
        and $(are_tiles "select z, x, y, cast(d as blob) from ($map, tile_data as d from tiles_with_hash) where $in_grid and length(d) > 0") as ok" ;;
    *) own='select 0 as ok' ;;
    esac
    cat <<SQL
create temp table own as $own;
select 'layout ' || case when ok then '$1' else 'flat' end from own;
insert or replace into main.kept select z, x, y, coalesce(length(d), 0) > 0 from grid where $2;
select 'rows';
select 'row images t' || tile_id || ' ' || case when tile_data is null then 'n' else 'x' || hex(cast(tile_data as blob)) end from images where '$1' = 'normalized' and (select ok from own);
select 'row map i' || z || ' i' || x || ' i' || y || ' ' || case when tile_id is null then 'n' else 't' || tile_id end
    from ($map, tile_id from map) where $in_grid and '$1' = 'normalized' and (select ok from own);
select 'row tiles_with_hash i' || z || ' i' || x || ' i' || y || ' ' || case when d is null then 'n' else 'x' || hex(cast(d as blob)) end || ' ' || case when tile_hash is null then 'n' else 't' || tile_hash end
    from ($map, tile_data as d, tile_hash from tiles_with_hash) where $in_grid and '$1' = 'flat-with-hash' and (select ok from own);
select $flat from grid where not (select ok from own) and (z, x, y) not in (select z, x, y from twice);
select distinct $flat from grid where not (select ok from own) and (z, x, y) in (select z, x, y from twice);
select '# rows ' || case when (select ok from own) then (select count(*) from ($map from $table) where $in_grid)
    else grid - coalesce((select sum(n - 1) from twice), 0) end from counted;
commit;
SQL
}
