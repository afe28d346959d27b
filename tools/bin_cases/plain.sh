# Cases of tools/check_bin: archives as other tools write them, with directories in gzip, made plain.
# shellcheck disable=SC2034,SC2154

plain=$bin/pmtiles-plain
compressed() { python3 "$top/tools/checks/compressed_archive.py" "$@"; }
alone() { [ "$(ls -A "$1" | tr '\n' ' ')" = "$2 " ]; }
is_sound() { case $("$bin/tile_verify" "$1") in sound*) ;; *) false ;; esac; }
grid() {
    printf 'option %s\n' 'type png' 'metadata t{"name":"grid","tilestats":{"half":0.5}}' 'bounds -1 -900000000 1800000000 1234567'
    printf 'base flat\nrow tiles i0 i0 i0 x30\nrow tiles i5 i1 i2 x35\nrow tiles i30 i0 i0 x33\n'
    awk 'BEGIN { for (x = 0; x < 128; x++) for (y = 0; y < 128; y++) printf "row tiles i7 i%d i%d x%s\n", x, y, x < 64 ? "3131" : sprintf("%02x%02x", x, y) }'
}

if ! command -v python3 >/dev/null; then
    skips 'the command python3 is missing, so no archive is made plain'
else
    fresh 'an archive with its directories in gzip, and the same one plain'
    "$bin/mbtiles-to-pmtiles" "$top/examples/places.mbtiles" first.pmtiles >/dev/null
    compressed first.pmtiles other.pmtiles
    run "$bin/tile_verify" other.pmtiles
    status 1
    run "$plain" other.pmtiles plain.pmtiles
    status 0
    prints '^74 tiles in 74 entries$'
    holds [ ! -s err ]
    holds same plain.pmtiles "$top/examples/places.mbtiles"
    holds cmp -s first.pmtiles plain.pmtiles
    # one that is plain comes out as it was
    run "$plain" plain.pmtiles again.pmtiles
    status 0
    holds cmp -s plain.pmtiles again.pmtiles
    run "$plain" other.pmtiles plain.pmtiles
    status 1
    says 'plain.pmtiles is there; --overwrite replaces it'
    run "$plain" --overwrite --no-verify other.pmtiles plain.pmtiles
    status 0
    holds cmp -s first.pmtiles plain.pmtiles
    ends

    for leaf in 4096 500 7; do
        fresh "an archive of runs whose leaves of $leaf entries lie in gzip, one below another"
        grid >script
        feed script "$bin/tileset" convert file first.pmtiles
        compressed first.pmtiles other.pmtiles $leaf
        run "$plain" other.pmtiles plain.pmtiles
        status 0
        holds is_sound plain.pmtiles
        "$bin/pmtiles-to-mbtiles" plain.pmtiles back.mbtiles
        holds same first.pmtiles back.mbtiles
        cp same first
        holds same plain.pmtiles back.mbtiles
        holds cmp -s same first
        ends
    done

    fresh 'an archive without tiles made plain'
    "$bin/tileset" convert file first.pmtiles <<<'base flat' >/dev/null
    compressed first.pmtiles other.pmtiles
    run "$plain" other.pmtiles plain.pmtiles
    status 0
    holds cmp -s first.pmtiles plain.pmtiles
    ends

    fresh 'what is refused is not made plain, and leaves nothing'
    "$bin/mbtiles-to-pmtiles" "$top/examples/places.mbtiles" first.pmtiles >/dev/null
    compressed first.pmtiles other.pmtiles 10
    mkdir to
    size=$(stat -c %s other.pmtiles)
    # cut off at its end, in its directories, in its header
    for left in $((size - 1)) $((size / 2)) 300 127 126 0; do
        head -c "$left" other.pmtiles >broken.pmtiles
        run "$plain" broken.pmtiles to/made.pmtiles
        status 1
        holds nothing_in to
    done
    # each byte of the header and of the directories changed by itself: an archive of the same tiles, or a refusal
    "$bin/pmtiles-to-mbtiles" first.pmtiles set.mbtiles
    for at in $(seq 0 13 700); do
        cp other.pmtiles broken.pmtiles
        printf '\377' | dd of=broken.pmtiles bs=1 seek="$at" conv=notrunc status=none
        run "$plain" --overwrite --no-verify broken.pmtiles to/made.pmtiles
        case $got in
        0)
            holds same to/made.pmtiles set.mbtiles
            rm to/made.pmtiles
            ;;
        1) holds nothing_in to ;;
        *) problem="$problem; status $got at byte $at" ;;
        esac
    done
    ends

    fresh 'archives of which readers and a walk find other tiles, and odd metadata'
    # writes archives of two leaves, a root and metadata, all numbers of which are small
    cat >made.py <<'PYTHON'
import struct
def directory(*entries):
    ids = [entry[0] - before[0] for before, entry in zip(((0,), *entries), entries)]
    return bytes([len(entries), *ids, *(entry[3] for entry in entries), *(entry[2] for entry in entries), *(entry[1] + 1 for entry in entries)])
def archive(name, low, high, metadata=b'{}', data=b'AABBBCCCC'):
    leaves = directory(*low) + directory(*high)
    root = directory((0, 0, len(directory(*low)), 0), (50, len(directory(*low)), len(directory(*high)), 0))
    at = [127, 127 + len(root), 127 + len(root) + len(metadata), 127 + len(root) + len(metadata) + len(leaves)]
    places = (at[0], len(root), at[1], len(metadata), at[2], len(leaves), at[3], len(data))
    with open(name, 'wb') as file:
        file.write(b'PMTiles\x03' + struct.pack('<11Q6B4iB2i', *places, 0, 0, 0, 0, 1, 1, 2, 0, 3, 0, 0, 0, 0, 0, 0, 0) + root + metadata + leaves + data)
low, high = [(0, 0, 2, 1), (9, 2, 3, 2)], [(60, 5, 4, 1)]
archive('good', low, high)
# a reader looks for the ids 2 and 70 in the other leaf, and for 55 in it too
archive('below', low, [(2, 2, 3, 1), (60, 5, 4, 1)])
archive('above', [*low, (70, 2, 3, 1)], [(80, 5, 4, 1)])
archive('run', [*low, (40, 2, 3, 17)], high)
archive('order', [(0, 0, 2, 1), (0, 2, 3, 1)], high)
archive('over', [(0, 0, 2, 5), (3, 2, 3, 1)], high)
archive('utf16', low, high, '{"name":"a"}'.encode('utf-16'))
archive('nan', low, high, b'{"a":NaN}')
archive('deep', low, high, b'[' * 200000 + b']' * 200000)
archive('long', low, high, b'{"a":' + b'9' * 5000 + b'}')
PYTHON
    python3 made.py
    for name in good long; do
        run "$plain" $name to.pmtiles
        status 0
        prints '^4 tiles in 3 entries$'
        for place in '0 0 0' '3 0 0' '2 2 3' '3 4 7'; do
            # shellcheck disable=SC2086
            "$fatyngu" tile $name $place >tile 2>/dev/null
            # shellcheck disable=SC2086
            run "$fatyngu" tile to.pmtiles $place
            holds cmp -s out tile
        done
        rm to.pmtiles
    done
    mkdir to
    for name in below above run order over; do
        run "$bin/tile_verify" $name
        status 1
        run "$plain" --no-verify $name to/made.pmtiles
        status 1
        says 'out of order, or lies where no reader finds it'
        holds nothing_in to
    done
    for name in utf16 nan deep; do
        run "$plain" --no-verify $name to/made.pmtiles
        status 1
        says '^pmtiles-plain: the metadata are \(no JSON in UTF-8\|nested too deep\)'
        holds [ "$(wc -l <err)" = 1 ]
        holds nothing_in to
    done
    ends

    fresh 'a file of the user beside what is made plain'
    mkdir to
    for name in .new .part ''; do
        for way in '' --overwrite; do
            rm -f to/*
            # the number of the process is that of the command
            run bash -c 'echo mine >"$2.$$$3"; exec "$0" --no-verify $4 "$1" "$2"' "$plain" "$one_tile" to/made.pmtiles "$name" $way
            status 0
            holds cmp -s to/made.pmtiles "$one_tile"
            holds [ "$(ls -A to | wc -l)" = 2 ]
            holds [ "$(cat to/made.pmtiles.*)" = mine ]
        done
        rm -f to/*
        run bash -c 'echo mine >"$2.$$$3"; exec "$0" --no-verify "$1" "$2"' "$plain" "$places" to/made.pmtiles "$name"
        status 1
        holds [ "$(cat to/*)" = mine ]
    done
    ends

    fresh 'an interrupt on the terminal'
    # a gigabyte of tiles, of which the file has no block
    cp "$one_tile" long.pmtiles
    printf '\0\0\0\100\0\0\0\0' | dd of=long.pmtiles bs=1 seek=64 conv=notrunc status=none
    truncate -s 1100000000 long.pmtiles
    mkdir to
    for signal in INT:130 TERM:143; do
        # a group of its own, as a terminal has one
        env --default-signal setsid "$plain" --no-verify long.pmtiles to/made.pmtiles >out 2>err </dev/null &
        made=$!
        for _ in $(seq 200); do
            # the folder is there before Python is
            [ -z "$(find to -type f)" ] || break
            sleep 0.1
        done
        kill -"${signal%:*}" -- -$made
        wait $made
        got=$?
        status "${signal#*:}"
        holds eval '! grep -v "^Terminated$" err'
        holds nothing_in to
    done
    ends

    fresh 'a check that can not be made'
    built=$here/crates/tile_verify_program/out/tile_verify_program
    mv "$built" kept
    mkdir to
    run env PATH=/usr/bin:/bin "$plain" "$one_tile" to/made.pmtiles
    status 1
    says "rt isn.t on PATH"
    says "what was made isn.t checked, and not put in place; --no-verify"
    holds eval '! grep -q "not sound" err'
    holds nothing_in to
    mv kept "$built"
    mkdir path
    for word in sh dirname readlink sed; do ln -s "$(command -v $word)" path/$word; done
    run env PATH="$t/path" "$plain" "$one_tile" to/made.pmtiles
    status 1
    says 'the command python3 is missing'
    ends

    fresh 'words and files of pmtiles-plain'
    "$bin/mbtiles-to-pmtiles" "$top/examples/places.mbtiles" first.pmtiles >/dev/null
    compressed first.pmtiles other.pmtiles
    run "$plain" --help
    status 0
    prints '^usage: pmtiles-plain'
    run "$plain" --version
    prints '^pmtiles-plain [0-9.]*$'
    for words in '' 'one' 'one two three' '--any one two'; do
        # shellcheck disable=SC2086
        run "$plain" $words
        status 2
        says 'usage: pmtiles-plain'
    done
    run "$plain" none.pmtiles out.pmtiles
    status 3
    says 'there is no file none.pmtiles'
    run "$plain" . out.pmtiles
    status 6
    run "$plain" other.pmtiles none/out.pmtiles
    status 6
    run "$plain" "$top/examples/places.mbtiles" out.pmtiles
    status 1
    says 'is no PMTiles archive of version 3'
    # a link is followed, and a name with a dash is a file
    ln -s first.pmtiles link.pmtiles
    run "$plain" --overwrite --no-verify -- other.pmtiles link.pmtiles
    status 0
    holds [ -L link.pmtiles ]
    cp other.pmtiles ./-other
    run "$plain" --no-verify -- -other -plain
    status 0
    holds cmp -s first.pmtiles ./-plain
    # a compression whose command isn't there
    if ! command -v brotli >/dev/null; then
        cp other.pmtiles brotli.pmtiles
        printf '\003' | dd of=brotli.pmtiles bs=1 seek=97 conv=notrunc status=none
        run "$plain" brotli.pmtiles out.pmtiles
        status 10
        says 'brotli'
        holds [ ! -e out.pmtiles ]
    fi
    ends
fi
