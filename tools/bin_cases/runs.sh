# Cases of tools/check_bin: runs that meet, runs that are stopped, and what is synced before it has its name.
# shellcheck disable=SC2034,SC2154

program=$here/crates/mbtiles_to_pmtiles_program/out/mbtiles_to_pmtiles_program
many="with recursive n(v) as (values (0) union all select v + 1 from n where v < 19999) insert into tiles select 8, v % 256, v / 256, randomblob(600) from n"
# wait_for_lock FILE PROCESS: waits until the process holds the file's lock, which it takes once it made the file
wait_for_lock() {
    wait_for "$1" "$2" || return 1
    for _ in $(seq 2000); do
        inode=$(stat -c %i "$1" 2>/dev/null) || return 1
        grep -q ":$inode " /proc/locks && return 0
        is_gone "$2" && return 1
        sleep 0.005
    done
    false
}

fresh 'what a stopped run left is made anew'
set_of a.mbtiles "$one"
for place in program wrapper; do
    [ $place = wrapper ] && converter=$bin/mbtiles-to-pmtiles || converter=$program
    rm -f made.pmtiles
    echo left >made.pmtiles.new
    run "$converter" a.mbtiles made.pmtiles
    status 0
    says 'made.pmtiles.new was left by a run that was stopped'
    holds same made.pmtiles a.mbtiles
    holds [ ! -e made.pmtiles.new ]
done
# its second name keeps what it has
cp made.pmtiles whole
ln whole made.pmtiles.new
echo no >bad.mbtiles
run "$program" --overwrite bad.mbtiles made.pmtiles
holds [ "$got" != 0 ]
holds cmp -s whole made.pmtiles
ln -f whole made.pmtiles.new
run "$program" --overwrite a.mbtiles made.pmtiles
status 0
holds cmp -s whole made.pmtiles
echo left >made.mbtiles.new
run "$back" "$two_tiles" made.mbtiles
status 0
says 'made.mbtiles.new was left by a run that was stopped'
holds same "$two_tiles" made.mbtiles
holds [ ! -e made.mbtiles.new ]
ends

fresh 'a run that is killed'
set_of a.mbtiles "$many"
"$program" a.mbtiles made.pmtiles >killed.out 2>&1 </dev/null &
made=$!
if wait_for made.pmtiles.new $made; then
    kill -KILL $made
    wait $made 2>/dev/null
    holds [ ! -e made.pmtiles ]
    run "$program" a.mbtiles made.pmtiles
    status 0
else
    wait $made
fi
holds same made.pmtiles a.mbtiles
holds [ ! -e made.pmtiles.new ]
ends

fresh 'two runs with one place'
set_of a.mbtiles "$many"
set_of b.mbtiles "$one"
for place in program wrapper; do
    [ $place = wrapper ] && converter=$bin/mbtiles-to-pmtiles || converter=$program
    rm -f made.pmtiles
    "$program" a.mbtiles made.pmtiles >first.out 2>&1 </dev/null &
    made=$!
    if wait_for_lock made.pmtiles.new $made; then
        kill -STOP $made
        if [ ! -e made.pmtiles ]; then
            run "$converter" b.mbtiles made.pmtiles
            status 1
            says 'made.pmtiles.new is written by another run'
            run "$converter" --overwrite b.mbtiles made.pmtiles
            status 1
            holds [ -e made.pmtiles.new ]
        fi
        kill -CONT $made
    fi
    wait $made
    got=$?
    status 0
    holds same made.pmtiles a.mbtiles
done
ends

if command -v flock >/dev/null; then
    fresh 'a place that another run holds'
    set_of a.mbtiles "$one"
    for out in made.pmtiles made.mbtiles; do
        : >$out.new
        flock $out.new sleep 30 &
        held=$!
        sleep 0.3
        if [ $out = made.pmtiles ]; then run "$bin/mbtiles-to-pmtiles" a.mbtiles $out; else run "$back" "$two_tiles" $out; fi
        status 1
        says "$out.new is written by another run"
        holds [ -e $out.new ]
        holds [ ! -e $out ]
        kill $held
        wait $held 2>/dev/null
    done
    ends
else
    skips 'the command flock is missing, so a place that another run holds is not tried'
fi

# What the system is asked for, in its order: the bytes are on the disk before they have their name, and then the name.
if command -v strace >/dev/null && strace -o "$room/traced" true 2>/dev/null; then
    # calls FILE: the calls on a file's bytes and name, a word each
    calls() { sed -n 's/^[0-9 ]*\(fsync\|fdatasync\|link\|linkat\|rename\|renameat\|renameat2\)(.*= 0$/\1/p' trace | tr '\n' ' '; }
    traced() { run strace -f -e trace=fsync,fdatasync,link,linkat,rename,renameat,renameat2 -o trace "$@"; }
    fresh 'bytes are synced before they have their name'
    set_of a.mbtiles "$one"
    traced "$program" a.mbtiles made.pmtiles
    status 0
    holds eval 'calls | grep -q "fsync link[at]* fsync $"'
    traced "$program" --overwrite a.mbtiles made.pmtiles
    status 0
    holds eval 'calls | grep -q "fsync rename[at2]* fsync $"'
    traced "$here/crates/pmtiles_to_mbtiles_program/out/pmtiles_to_mbtiles_program" "$two_tiles" made.mbtiles
    status 0
    holds eval 'calls | grep -q "fsync link[at]* fsync $"'
    cp "$top/examples/one_tile.script" script
    run strace -f -e trace=fsync -o trace bash -c '"$0" convert file new.pmtiles <script' "$here/crates/tileset_program/out/tileset_program"
    status 0
    holds eval 'calls | grep -q "fsync fsync $"'
    traced "$here/crates/tile_extract_program/out/tile_extract_program" "$two_tiles" part 0 0 0 1 10
    status 0
    holds eval 'calls | grep -q "fsync fsync $"'
    traced "$bin/mbtiles-to-pmtiles" --by-script a.mbtiles scripted.pmtiles
    status 0
    holds eval 'calls | grep -q "fsync link[at]* fsync $"'
    # a disk that can't be synced
    run strace -f -e trace=fsync -e inject=fsync:error=EIO -o trace "$program" a.mbtiles other.pmtiles
    status 6
    says 'other.pmtiles'
    holds [ ! -e other.pmtiles ]
    run strace -f -e trace=fsync -e inject=fsync:error=EIO:when=2 -o trace "$program" a.mbtiles other.pmtiles
    status 6
    says "the folder can't be synced"
    run strace -f -e trace=fsync -e inject=fsync:error=EIO -o trace bash -c '"$0" convert file unsynced.pmtiles <script' "$here/crates/tileset_program/out/tileset_program"
    status 6
    ends
else
    echo 'check_bin: no calls can be traced here, so the syncing of files is not shown'
fi
