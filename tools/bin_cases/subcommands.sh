# Cases of tools/check_bin: the subcommands of bin/fatyngu, their words, and what they print of archives and tiles.
# shellcheck disable=SC2034,SC2154

program=$here/crates/fatyngu_program/out/fatyngu_program

fresh 'the subcommands and their words'
for word in --help -h; do
    run "$fatyngu" $word
    status 0
    prints '^usage: fatyngu SUBCOMMAND'
    holds [ ! -s err ]
done
run "$fatyngu" --version
status 0
prints '^fatyngu 0.1.0$'
run "$program" --version
prints '^fatyngu 0.1.0$'
run "$program" --help
status 0
prints 'status: 0 done'
for words in '' nothing 'show' 'show a b' 'tile a 0 0' 'meta' 'meta put a b' 'meta get a' 'hash a --wrong' 'summary --force a' 'patch a' 'copy a --copy' \
    'show a --metadata --entries' 'show a --url u' 'validate a --agg-hash maybe' 'copy a b --copy some' 'copy a b --min-zoom 31' 'copy a b --min-zoom 1 --zoom-levels 1' \
    'copy a b --zoom-levels 1,' 'pack a b --scheme up' 'unpack a b --scheme up' 'hash a --update --update' 'extract a b' 'extract a b 1/1' 'extract a b 1/1/x' 'serve a 1'; do
    # shellcheck disable=SC2086
    run "$fatyngu" $words
    status 2
    says '^fatyngu: '
    holds [ ! -s out ]
done
for name in show tile summary validate hash 'meta get' 'meta set' 'meta all' copy patch pack unpack extract join; do
    # shellcheck disable=SC2086
    run "$fatyngu" $name --help
    status 0
    prints "^usage: fatyngu $name"
done
for name in convert import verify serve; do
    run "$fatyngu" $name --help
    status 0
    prints '^usage: '
done
run bash -c 'exec "$0" summary --help >/dev/full' "$fatyngu"
status 5
says "standard output can't be written"
ends

fresh 'the subcommands of other commands'
run "$fatyngu" convert "$places" made.pmtiles
status 0
prints '^tiles 74, contents 74$'
run "$fatyngu" verify made.pmtiles
status 0
prints '^sound '
run "$fatyngu" import made.pmtiles back.mbtiles
status 0
holds [ "$(tiles_of back.mbtiles)" = "$(tiles_of "$places")" ]
run "$fatyngu" extract made.pmtiles part.pmtiles 1/0/0
status 0
run "$fatyngu" show part.pmtiles
prints '^zooms 1 to 4$'
if command -v python3 >/dev/null; then
    run "$fatyngu" plain made.pmtiles plain.pmtiles
    status 0
    holds cmp -s made.pmtiles plain.pmtiles
fi
printf 'GET 0 0 0\n' >asked
feed asked "$fatyngu" serve made.pmtiles
status 0
prints '^200 '
run "$fatyngu" convert missing.mbtiles none.pmtiles
status 3
ends

fresh 'what an archive says of itself'
run "$fatyngu" show "$described"
status 0
prints '^type mvt$'
prints '^zooms 0 to 1$'
prints '^bounds -8.4,-85.051129,180,85.051129 degrees$'
prints '^center 0,0,1$'
prints '^tile entries 2$'
prints '^metadata 56 bytes at 16384$'
run "$fatyngu" show "$described" --metadata
status 0
holds [ "$(cat out)" = '{"name":"town","vector_layers":[{"fields":{},"id":"a"}]}' ]
run "$fatyngu" show --tilejson "$described" --url 'https://x/{z}/{x}/{y}'
status 0
holds [ "$(cat out)" = '{"bounds":[-8.4,-85.051129,180,85.051129],"center":[0,0,1],"maxzoom":1,"minzoom":0,"name":"town","tilejson":"3.0.0","tiles":["https://x/{z}/{x}/{y}"],"vector_layers":[{"fields":{},"id":"a"}]}' ]
run "$fatyngu" show "$described" --entries
status 0
holds [ "$(cat out)" = "0 0/0/0 1 0 2
3 1/1/1 1 2 2" ]
echo no archive and no set, but long enough >bad
for words in 'show bad' 'tile bad 0 0 0'; do
    # shellcheck disable=SC2086
    run "$fatyngu" $words
    status 3
    says 'bad is neither an archive'
done
head -c 100 "$described" >short
run "$fatyngu" show short
status 1
says 'short: '
run "$fatyngu" show missing
status 3
says 'missing: No such file'
run "$fatyngu" show .
status 4
says 'no regular file'
mkfifo pipe
run timeout 20 "$fatyngu" show pipe
status 4
run "$fatyngu" show "$places" --metadata
status 1
says 'no archive'
for words in "show $described" "show $described --entries" "tile $described 0 0 0" "hash $places" "meta all $places"; do
    # shellcheck disable=SC2086
    run bash -c 'exec "$0" "$@" >/dev/full' "$program" $words
    status 5
    # shellcheck disable=SC2086
    run bash -c 'exec "$0" "$@" >&-' "$program" $words
    status 5
    says "standard output can't be written"
done
ends

fresh 'tiles of archives and of sets'
"$fatyngu" convert "$places" made.pmtiles >/dev/null
for place in '0 0 0' '2 1 1' '4 7 6'; do
    # shellcheck disable=SC2086
    set -- $place
    wanted=$(ask "$places" "select hex(tile_data) from tiles where zoom_level = $1 and tile_column = $2 and tile_row = (1 << $1) - 1 - $3")
    for file in "$places" made.pmtiles; do
        run "$fatyngu" tile "$file" "$@"
        if [ -n "$wanted" ]; then
            status 0
            holds [ "$(od -An -v -tx1 out | tr -d ' \n' | tr a-f A-F)" = "$wanted" ]
        else
            status 1
        fi
    done
done
for file in "$places" made.pmtiles; do
    run "$fatyngu" tile "$file" 20 0 0
    status 1
    says 'has no tile 20/0/0'
    holds [ ! -s out ]
    run "$fatyngu" tile "$file" 1 2 0
    status 2
done
ends

fresh 'the examples of README'
ln -s "$bin" bin
ln -s "$top/examples" examples
grep '^| `bin/' "$top/README.md" | sed 's/^.*| `\(.*\)` |$/\1/' >listed
holds [ "$(wc -l <listed)" -gt 15 ]
while read -r line; do
    case $line in
    # it runs until it is ended, and has cases of its own
    *--http*) continue ;;
    *plain* | *--map* | *--bbox*) command -v python3 >/dev/null || continue ;;
    esac
    run bash -c "$line"
    [ "$got" = 0 ] || problem="$problem; status $got of $line"
done <listed
ends
