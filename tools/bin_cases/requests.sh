# Cases of tools/check_bin: requests for tiles that are answered line by line. What an archive has is read by Python.
# shellcheck disable=SC2034,SC2154

program=$here/crates/fatyngu_program/out/fatyngu_program

fresh 'requests by lines'
for words in "$one_tile 1" "$one_tile 64 1000000 4096" "$one_tile 0 1 1 1" "$one_tile 1 1 0 1" "$one_tile 1 4294967296 1 1" "$one_tile a 1 1 1" "$one_tile 1 1 1 1 1" '' "$one_tile --limits 1"; do
    # shellcheck disable=SC2086
    run "$fatyngu" serve $words
    status 2
    says '^fatyngu: usage: fatyngu serve FILE'
    holds [ ! -s out ]
done
printf 'GET 0 0 0\nGET 0 0 0' >asked
for limits in '' '1 0 1 0' '4294967295 4294967295 4294967295 18446744073709551615'; do
    # shellcheck disable=SC2086
    feed asked "$fatyngu" serve "$one_tile" $limits
    status 0
    holds [ "$(wc -l <out)" = 2 ]
    cp out first
    feed asked "$bin/tile_serve" "$one_tile" 64 65536 1000 1000000
    holds cmp -s out first
done
run "$fatyngu" serve "$one_tile"
status 0
holds [ ! -s out ]
run "$fatyngu" serve missing
status 6
says 'missing: No such file'
prints '^source fault$'
run "$fatyngu" serve .
status 6
says 'no regular file'
run "$fatyngu" serve "$places"
status 1
says 'archive of the PMTiles format'
holds [ ! -s out ]
head -c 100 "$one_tile" >short
run "$fatyngu" serve short
status 1
for place in "$fatyngu" "$program"; do
    run bash -c 'exec "$0" serve "$1" <&-' "$place" "$one_tile"
    status 4
    says "standard input can't be read"
    feed asked bash -c 'exec "$0" serve "$1" >&-' "$place" "$one_tile"
    status 5
    says "standard output can't be written"
    feed asked bash -c 'exec "$0" serve "$1" >/dev/full' "$place" "$one_tile"
    status 5
    run bash -c '(cat "$1"; sleep 1; cat "$1") | "$0" serve "$2" | head -n 1 >/dev/null; exit ${PIPESTATUS[1]}' "$place" asked "$one_tile"
    status 5
done
ends

if command -v python3 >/dev/null; then
    fresh 'a reply to each line at once'
    served make pictures.pmtiles packed.pmtiles
    for archive in pictures packed; do
        answered lines $archive.pmtiles "$fatyngu" serve $archive.pmtiles
        answered lines $archive.pmtiles "$program" serve $archive.pmtiles 1 0 1 0
    done
    ends
else
    skips 'the command python3 is missing, so no reply is waited for'
fi
