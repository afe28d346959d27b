# Cases of tools/check_bin: runs that fail, what they say and leave.
# shellcheck disable=SC2034,SC2154

fresh 'a failed conversion leaves no file'
echo bad >script
feed script "$bin/tileset" convert file made
status 3
says 'line 1 of the script'
holds [ ! -e made ]
: >made
feed script "$bin/tileset" convert file made
status 3
holds [ -e made ]
holds [ ! -s made ]
echo before >made
feed script "$bin/tileset" convert file made
status 3
holds [ "$(cat made)" = before ]
feed "$top/examples/one_tile.script" "$bin/tileset" convert file made
status 1
says 'made: the file has 7 bytes'
prints '^refused: medium not empty 7$'
holds [ "$(cat made)" = before ]
printf 'base flat\npatch flat\n' >script
feed script "$bin/tileset" convert file new
status 1
says 'patch\|base'
says 'option force'
holds [ ! -e new ]
ends

fresh 'a failed extraction leaves no file'
run "$bin/tile_extract" "$two_tiles" part 1 0 0 1 0
status 1
says 'more than 0 tiles'
holds [ ! -e part ]
run "$bin/tile_extract" "$two_tiles" part 3 0 0 1 10
status 1
says 'invalid zoom'
holds [ ! -e part ]
echo no >bad
run "$bin/tile_extract" bad part 0 0 0 0 1
status 1
says 'tile_extract: bad: '
holds [ ! -e part ]
run "$bin/tile_extract" missing part 0 0 0 0 1
status 6
says 'tile_extract: missing: No such file'
holds [ ! -e part ]
run "$bin/tile_extract" "$two_tiles" /dev/null 1 0 0 1 10
status 6
says '/dev/null: no regular file'
echo before >part
run "$bin/tile_extract" "$two_tiles" part 1 0 0 1 10
status 1
says 'part: the file has 7 bytes'
holds [ "$(cat part)" = before ]
run "$bin/tile_extract" "$two_tiles" other 1 0 0 1 ten
status 2
says 'tile_extract --help'
holds [ ! -e other ]
ends

fresh 'words of the verifier and the server'
echo no >bad
for tool in tile_verify tile_serve; do
    limits=
    [ $tool = tile_verify ] || limits='64 65536 1000 1000000'
    run "$bin/$tool" missing $limits
    status 6
    says "$tool: missing: No such file"
    run "$bin/$tool" . $limits
    status 6
    says "$tool: \.: no regular file"
    run "$bin/$tool" bad $limits
    status 1
    says "$tool: bad: .*PMTiles"
    run "$bin/$tool"
    status 2
    says "$tool --help"
    run "$bin/$tool" bad $limits more
    status 2
    says "$tool --help"
done
cp "$top/crates/tile_verify_program/data/one_tile.pmtiles" gzip.pmtiles
printf '\002' | dd of=gzip.pmtiles bs=1 seek=97 conv=notrunc 2>/dev/null
run "$bin/tile_verify" gzip.pmtiles
status 1
says 'unsupported compression.*plain'
run bash -c 'exec "$0" "$1" >/dev/full' "$bin/tile_verify" "$top/crates/tile_verify_program/data/one_tile.pmtiles"
status 5
says "can't be written"
run "$bin/tileset" convert
status 2
says 'tileset --help'
ends
