# Cases of tools/check_bin: what surrounds a run: names in the environment, pipes and devices in the place of files,
# names with signs that a shell drops, and names that a command may take for something else.
# shellcheck disable=SC2034,SC2154

# owned WORDS..: a command in an environment that has the names of the scripts' own folders and processes
owned() {
    run env room="$t/kept" work="$t/kept" new="$t/kept/file" marks="$t/kept" hashless=1 reader=$held copier=$held converter=$held rewriter=$held \
        follower=$held namer=$held trying=$held "$@"
    holds [ "$(cat kept/file 2>/dev/null)" = mine ]
    holds kill -0 $held
}
fresh 'names in the environment'
mkdir kept
echo mine >kept/file
sleep 1000 &
held=$!
set_of a.mbtiles "$three"
set_of hashed.mbtiles "$three; insert into metadata values ('agg_tiles_hash', '00')"
owned "$bin/mbtiles-script"
status 2
owned "$bin/mbtiles-script" missing.mbtiles
status 3
owned "$bin/mbtiles-script" a.mbtiles
status 0
owned "$convert" a.mbtiles made.pmtiles
status 0
owned "$convert" a.mbtiles made.pmtiles
status 1
owned "$convert" --by-script a.mbtiles scripted.pmtiles
status 0
owned "$convert" --by-script a.mbtiles scripted.pmtiles
status 1
owned "$convert" --by-script --verify hashed.mbtiles wrong.pmtiles
status 1
"$real" u.mbtiles "pragma encoding = 'UTF-16'; create table metadata (name text, value text); create table tiles ($columns); $three"
owned "$convert" u.mbtiles wide.pmtiles
status 0
holds same wide.pmtiles a.mbtiles
if command -v python3 >/dev/null; then
    owned "$bin/pmtiles-plain" --no-verify made.pmtiles plain.pmtiles
    status 0
    owned "$bin/pmtiles-plain" --no-verify made.pmtiles plain.pmtiles
    status 1
fi
kill $held
wait $held 2>/dev/null
ends

fresh 'pipes in the place of files'
mkfifo pipe
ln -s pipe link
for path in pipe link; do
    for words in 'verify' 'show' 'summary' 'hash'; do
        # shellcheck disable=SC2086
        run timeout 60 "$fatyngu" $words $path
        [ "$got" != 0 ] && [ "$got" != 124 ] || problem="$problem; status $got of $words"
    done
    if command -v python3 >/dev/null; then
        run timeout 60 "$fatyngu" show --map $path
        status 4
        says "$path: no regular file"
        run timeout 60 "$fatyngu" serve $path --http 0
        status 4
        says "$path: no regular file"
        run timeout 60 "$fatyngu" plain $path made.pmtiles
        status 6
        says "$path is no regular file"
    fi
done
holds [ ! -e made.pmtiles ]
ends

# A file that takes the place of such a link would get what all programs write there. The links are the case's own,
# since that of /dev/stdout would be gone. Standard output is a file here, which doesn't make it a file by this name.
fresh 'an archive in the place of a stream'
set_of a.mbtiles "$three"
ln -s /proc/self/fd/1 link
ln -s ./link second
mkdir folder
ln -s ../second folder/third
for path in link second folder/third /dev/fd/1; do
    for words in 'convert --overwrite a.mbtiles' 'convert --overwrite --by-script a.mbtiles' 'convert a.mbtiles' \
        "join --overwrite $one_tile" "join --max-tiles 9 $one_tile --overwrite --"; do
        # shellcheck disable=SC2086
        run "$fatyngu" $words $path
        status 1
        says ": $path is a stream; give the name of a file"
        holds [ ! -s out ]
    done
    for words in '--overwrite' ''; do
        # shellcheck disable=SC2086
        run "$fatyngu" extract "$one_tile" $path '0 0 0 0 0' $words
        status 1
        says ": $path is a stream"
    done
    if command -v python3 >/dev/null; then
        run "$fatyngu" extract --overwrite "$one_tile" $path --tile 0/0/0
        status 1
        says ": $path is a stream"
        run "$fatyngu" plain --overwrite --no-verify "$one_tile" $path
        status 6
        says ": $path is a stream"
    fi
done
holds [ "$(readlink link)" = /proc/self/fd/1 ]
holds [ -L second ]
holds [ -L folder/third ]
# a device and a pipe of our own
mkfifo pipe
paths=pipe
! mknod device c 1 3 2>/dev/null || paths="$paths device"
for path in $paths; do
    for words in 'convert --overwrite a.mbtiles' 'convert --overwrite --by-script a.mbtiles' "join --overwrite $one_tile"; do
        # shellcheck disable=SC2086
        run timeout 60 "$fatyngu" $words $path
        status 1
        says "$path is no regular file"
    done
    run timeout 60 "$fatyngu" extract "$one_tile" $path '0 0 0 0 0' --overwrite
    status 1
    says "$path is no regular file"
done
holds [ -p pipe ]
holds [ ! -e device -o -c device ]
# links that lead to files are no streams
run "$fatyngu" convert a.mbtiles made.pmtiles
ln -s made.pmtiles file
run "$fatyngu" convert --overwrite a.mbtiles ./file
status 0
holds same file a.mbtiles
ends

fresh 'an archive in the place of a set'
set_of a.mbtiles "$three"
cp a.mbtiles b.mbtiles
ln -s b.mbtiles link
for path in b.mbtiles link; do
    for words in 'convert --overwrite a.mbtiles' 'convert --overwrite --by-script a.mbtiles' 'convert --force --overwrite a.mbtiles a.mbtiles' \
        "join --overwrite $one_tile"; do
        # shellcheck disable=SC2086
        run "$fatyngu" $words $path
        status 1
        says ": $path is a set, which no archive replaces"
    done
    run "$fatyngu" extract "$one_tile" $path '0 0 0 0 0' --overwrite
    status 1
    says ": $path is a set"
    if command -v python3 >/dev/null; then
        run "$fatyngu" plain --overwrite --no-verify "$one_tile" $path
        status 6
        says ": $path is a set"
    fi
done
holds cmp -s a.mbtiles b.mbtiles
holds [ -L link ]
# words that name no place of an archive
for words in 'join --help' 'join' "join $one_tile" 'join --max-tiles'; do
    # shellcheck disable=SC2086
    run "$fatyngu" $words
    [ "$words" = 'join --help' ] && status 0 || status 2
done
# the name of a variable that has none
echo mine >.new
for words in 'convert a.mbtiles' 'convert --overwrite a.mbtiles' 'convert --by-script a.mbtiles' "join $one_tile" "join --overwrite $one_tile"; do
    # shellcheck disable=SC2086
    run "$fatyngu" $words ''
    status 1
    says 'the name of the archive is empty'
done
run "$fatyngu" extract "$one_tile" '' '0 0 0 0 0'
status 1
says 'the name of the archive is empty'
holds [ "$(cat .new)" = mine ]
ends

if command -v python3 >/dev/null; then
    fresh 'what pmtiles-plain replaces'
    mkfifo pipe
    ln -s pipe link
    paths='pipe link folder'
    mkdir folder
    # a device of our own, since a device that is replaced is gone
    ! mknod device c 1 3 2>/dev/null || paths="$paths device"
    for path in $paths; do
        for flag in '' --overwrite; do
            # shellcheck disable=SC2086
            run timeout 60 "$bin/pmtiles-plain" --no-verify $flag "$one_tile" $path
            [ -n "$flag" ] && status 6 || status 1
            says "^pmtiles-plain: $path is "
        done
    done
    holds [ -p pipe ]
    holds [ -L link ]
    holds [ ! -e device -o -c device ]
    holds nothing_in folder
    ends

    fresh 'modules and packages of somebody else'
    set_of a.mbtiles "$three"
    user=$(HOME=$t/home python3 -m site --user-site)
    mkdir -p theirs "$user"
    for name in json sqlite3 struct hashlib contextlib runpy python_said tile_cells usercustomize; do
        echo "open('$t/ran', 'w'); raise SystemExit(3)" >theirs/$name.py
    done
    cp theirs/usercustomize.py "$user/"
    cp theirs/json.py theirs/runpy.py .
    for place in "PYTHONPATH=$t/theirs" PYTHONPATH=.: "PYTHONHOME=$t/none" "HOME=$t/home"; do
        rm -f made.pmtiles part.pmtiles
        run env "$place" "$fatyngu" show --map a.mbtiles
        status 0
        run env "$place" "$bin/pmtiles-plain" --no-verify "$one_tile" made.pmtiles
        status 0
        run env "$place" "$fatyngu" extract "$one_tile" part.pmtiles --bbox -180,-90,180,90
        status 0
        run env "$place" timeout 20 "$fatyngu" serve missing --http 0
        status 3
        holds [ ! -e ran ]
    done
    ends

    fresh 'names that end in a line feed'
    end='
'
    echo mine >made.pmtiles
    cp "$one_tile" "one.pmtiles$end"
    echo no >one.pmtiles
    run "$bin/pmtiles-plain" --no-verify "one.pmtiles$end" "made.pmtiles$end"
    status 0
    holds [ "$(cat made.pmtiles)" = mine ]
    holds [ -s "made.pmtiles$end" ]
    ln -s "made.pmtiles$end" link
    run "$bin/pmtiles-plain" --no-verify --overwrite "$one_tile" link
    status 0
    holds [ "$(cat made.pmtiles)" = mine ]
    holds [ -L link ]
    set_of a.mbtiles "$three"
    for way in '' --by-script; do
        rm -f "set.pmtiles$end"
        # shellcheck disable=SC2086
        run "$convert" $way a.mbtiles "set.pmtiles$end"
        status 0
        holds same "set.pmtiles$end" a.mbtiles
        holds [ ! -e set.pmtiles ]
    done
    ends
fi

# names that a command may take for an option, an assignment, an URI or a pattern
odd_names=(-x x=y file:x :memory: 'x?mode=rw' 'x%41#' '*' "it's" 'x"' 'two words')
fresh 'folders for a while with odd names'
set_of a.mbtiles "$three; insert into metadata values ('format', 'png'), ('name', 'a set')"
run "$bin/mbtiles-script" a.mbtiles
status 0
mv out wanted
for name in "${odd_names[@]}"; do
    mkdir "./$name"
    run env TMPDIR="$name" "$bin/mbtiles-script" a.mbtiles
    status 0
    holds cmp out wanted
    run env TMPDIR="$name" "$convert" --by-script --overwrite a.mbtiles made.pmtiles
    status 0
    holds same made.pmtiles a.mbtiles
    holds same_has '3 0 1 2 1 {"name": "a set"}'
    holds nothing_in "./$name"
done
ends

fresh 'sets with odd names'
set_of a.mbtiles "$three"
for name in "${odd_names[@]}"; do
    cp a.mbtiles "./$name"
    for way in '' --by-script; do
        # shellcheck disable=SC2086
        run "$convert" $way --overwrite -- "$name" made.pmtiles
        status 0
        holds same made.pmtiles a.mbtiles
    done
    rm "./$name"
done
mkdir beyond
printf '%s\n' 'pragma cache_size = 2; begin exclusive; create table spilled (x); insert into spilled values (zeroblob(300000));' \
    "update tiles set tile_data = x'09';" '.shell cp a.mbtiles beyond/a.mbtiles && cp a.mbtiles-journal beyond/a.mbtiles-journal' | "$real" a.mbtiles >/dev/null
ln -s beyond/a.mbtiles ./-x
run "$convert" --by-script --overwrite -- -x made.pmtiles
status 1
says '-x has a rollback journal beside it'
ends

# words of a name that echo would read as its own
fresh 'names with backslashes'
echo no >'a\c\n.mbtiles'
for way in '' --by-script; do
    # shellcheck disable=SC2086
    run "$convert" $way 'a\c\n.mbtiles' made.pmtiles
    status 3
    holds grep -qF 'a\c\n.mbtiles is no SQLite database' err
done
run "$convert" 'b\c.mbtiles' made.pmtiles
status 3
holds grep -qF 'there is no file b\c.mbtiles' err
ends
