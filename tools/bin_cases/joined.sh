# Cases of tools/check_bin: archives that bin/fatyngu join makes of several. Which tiles each
# has is looked up by Python.
# shellcheck disable=SC2034,SC2154

# joins TILES IN ..: what join makes of archives has this many tiles, is sound, and has those of the last that has each
joins() {
    local count=$1
    shift
    rm -f out.pmtiles
    run "$fatyngu" join "$@" out.pmtiles
    status 0
    holds [ ! -s out ]
    holds [ ! -s err ]
    run "$fatyngu" verify out.pmtiles
    status 0
    prints '^sound '
    if command -v python3 >/dev/null; then
        python3 "$top/tools/checks/joined_tiles.py" out.pmtiles "$@" >joined 2>&1 || problem="$problem; $(tail -n 1 joined | cut -c1-200)"
        holds [ "$(head -n 1 joined)" = "$count" ]
    fi
    holds nothing_new
}
# a set of zooms 0 to 5 with contents of their own, and some that many tiles have
joined_sets() {
    set_of whole.mbtiles "with recursive z(v) as (values (0) union all select v + 1 from z where v < 5), n(v) as (values (0) union all select v + 1 from n where v < 1023)
        insert into tiles select z.v, n.v % (1 << z.v), n.v >> z.v, case when n.v % 5 < 2 then x'736561' else randomblob(30 + n.v % 40) end from z, n where n.v < 1 << 2 * z.v;
        insert into metadata values ('name', 'whole'), ('format', 'png'), ('minzoom', '0'), ('maxzoom', '5'), ('bounds', '-180,-85,180,85')"
    "$convert" whole.mbtiles whole.pmtiles >/dev/null 2>&1
    set_of change.mbtiles "insert into tiles values (5, 3, 4, x'0a0b'), (5, 4, 4, x'736561'), (3, 0, 0, x'736561'), (6, 0, 0, x'0c'); insert into metadata values ('name', 'change'), ('format', 'png'), ('minzoom', '3'), ('maxzoom', '6')"
    "$convert" change.mbtiles change.pmtiles >/dev/null 2>&1
}

fresh 'archives that are joined'
joined_sets
joins 1365 whole.pmtiles
holds [ "$(cksum <out.pmtiles)" = "$(cksum <whole.pmtiles)" ]
# the parts of an archive make it, in any order where none lies over another
for tile in 0/0/0 1/0/0 1/0/1 1/1/0 1/1/1; do
    maximum=5
    [ $tile != 0/0/0 ] || maximum=0
    "$fatyngu" extract whole.pmtiles "${tile//\//_}.pmtiles" $tile $maximum >/dev/null 2>&1
done
joins 1365 0_0_0.pmtiles 1_0_0.pmtiles 1_0_1.pmtiles 1_1_0.pmtiles 1_1_1.pmtiles
run "$fatyngu" show out.pmtiles
prints '^zooms 0 to 5$'
joins 1365 1_1_1.pmtiles 1_0_1.pmtiles 0_0_0.pmtiles 1_1_0.pmtiles 1_0_0.pmtiles
# changes come last, and are hidden where they come first
joins 1366 whole.pmtiles change.pmtiles
run "$fatyngu" tile out.pmtiles 5 3 27
holds [ "$(od -An -tx1 <out | tr -d ' ')" = 0a0b ]
run "$fatyngu" show --metadata out.pmtiles
prints '"change"'
run "$fatyngu" show out.pmtiles
prints '^zooms 0 to 6$'
joins 1366 change.pmtiles whole.pmtiles
joins 4 change.pmtiles change.pmtiles
joins 1366 whole.pmtiles 1_0_0.pmtiles change.pmtiles 0_0_0.pmtiles
ends

fresh 'archives that are not joined'
joined_sets
run "$fatyngu" join whole.pmtiles
status 2
run "$fatyngu" join whole.pmtiles out.pmtiles --max-tiles many
status 2
run "$fatyngu" join whole.pmtiles change.pmtiles out.pmtiles --max-tiles 1365
status 1
says '^fatyngu: out.pmtiles would have more than 1365 tiles'
run "$fatyngu" join whole.pmtiles change.pmtiles out.pmtiles --max-tiles 1366
status 0
rm -f out.pmtiles
run "$fatyngu" join whole.pmtiles missing.pmtiles out.pmtiles
status 3
says 'missing.pmtiles'
run "$fatyngu" join whole.pmtiles whole.mbtiles out.pmtiles
status 1
says 'whole.mbtiles is a set; fatyngu convert'
run "$fatyngu" join whole.pmtiles change.pmtiles whole.pmtiles
status 1
says 'are one file'
run "$fatyngu" join whole.pmtiles change.pmtiles change.pmtiles --overwrite
status 1
says 'are one file'
head -c 400 whole.pmtiles >short.pmtiles
run "$fatyngu" join change.pmtiles short.pmtiles out.pmtiles
status 1
says 'short.pmtiles'
run "$fatyngu" join short.pmtiles change.pmtiles out.pmtiles
status 1
says 'short.pmtiles'
set_of other.mbtiles "insert into tiles values (0, 0, 0, x'01'); insert into metadata values ('name', 'other'), ('format', 'webp')"
"$convert" other.mbtiles other.pmtiles >/dev/null 2>&1
run "$fatyngu" join other.pmtiles whole.pmtiles out.pmtiles
status 1
says '^fatyngu: other.pmtiles has tiles of another type or compression than the last archive'
holds [ ! -e out.pmtiles ]
echo kept >out.pmtiles
run "$fatyngu" join whole.pmtiles change.pmtiles out.pmtiles
status 1
says 'out.pmtiles'
holds [ "$(cat out.pmtiles)" = kept ]
chmod 640 out.pmtiles
run "$fatyngu" join whole.pmtiles change.pmtiles out.pmtiles --overwrite
status 0
holds [ "$(stat -c %a out.pmtiles)" = 640 ]
holds nothing_new
run "$fatyngu" join whole.pmtiles change.pmtiles nowhere/out.pmtiles
status 6
ends
