# Cases of tools/check_bin: tiles that are served by HTTP, their map, and what is installed. What an archive has is read
# by Python.
# shellcheck disable=SC2034,SC2154

# answers URL WORDS: the status of an answer, and its text
answers() {
    served status "$1" >answered 2>&1
    grep -q "^$2" answered || problem="$problem; $1 answers $(tail -n 1 answered | cut -c1-160) and not $2"
}
# serve WORDS..: a server in the background, once it has said its address
serve() {
    : >served.out
    env --default-signal "$fatyngu" serve "$@" >served.out 2>served.err </dev/null &
    server=$!
    for _ in $(seq 200); do
        [ ! -s served.out ] || break
        kill -0 $server 2>/dev/null || break
        sleep 0.1
    done
    url=$(head -n 1 served.out)
    holds [ -n "$url" ]
}
below() { ps -o pid= --ppid "$1" | tr -d ' '; }
# ends_serving SIGNAL: the server and its program end, without a word
ends_serving() {
    child=$(below $server)
    kill -"$1" $server
    wait $server
    got=$?
    status 0
    [ -z "$child" ] || holds is_gone "$child"
    holds [ ! -s served.err ]
    holds [ "$(wc -l <served.out)" = 1 ]
}

if ! command -v python3 >/dev/null; then
    skips 'the command python3 is missing, so nothing is served by HTTP'
    return
fi

fresh 'tiles by HTTP'
served make pictures.pmtiles packed.pmtiles
for archive in pictures packed; do
    serve $archive.pmtiles --http 0
    answered http $archive.pmtiles "$url"
    ends_serving TERM
done
serve --http 0 --address localhost packed.pmtiles 1 0 1 0
answers "${url}3/4/7.pbf" '200 application/vnd.mapbox-vector-tile$'
ends_serving INT
cp pictures.pmtiles ./-pictures.pmtiles
serve --http 0 -- -pictures.pmtiles
answers "${url}0/0/0.png" '200 image/png$'
ends_serving HUP
ends

fresh 'a server that asks for a word'
for words in "$one_tile --http" "$one_tile --http x" "$one_tile --http 65536" "$one_tile --http -1" '--http 0' "$one_tile 1 --http 0" "$one_tile --address ::1" "$one_tile --http 0 --http 0" "$one_tile --http 0 --map"; do
    # shellcheck disable=SC2086
    run timeout 20 "$fatyngu" serve $words
    status 2
    says '^fatyngu: usage: fatyngu serve FILE .*--http PORT'
    holds [ ! -s out ]
done
run timeout 20 "$fatyngu" serve missing --http 0
status 3
says 'missing: No such file'
run timeout 20 "$fatyngu" serve short --http 0
status 3
run timeout 20 "$fatyngu" serve "$places" --http 0
status 1
says 'fatyngu convert makes one'
run timeout 20 "$fatyngu" serve "$one_tile" 0 1 1 1 --http 0
status 2
run timeout 20 "$fatyngu" serve "$one_tile" --http 0 --address no.such.host.invalid
status 1
says 'port 0 of no.such.host.invalid: '
for stream in '>&-' '>/dev/full'; do
    run timeout 20 bash -c "exec \"\$0\" serve \"\$1\" --http 0 $stream" "$fatyngu" "$one_tile"
    status 5
    says "standard output can't be written"
    holds [ "$(wc -l <err)" = 1 ]
done
ends

fresh 'a port that is in use'
serve "$one_tile" --http 0
port=${url%/}
port=${port##*:}
run timeout 20 "$fatyngu" serve "$one_tile" --http "$port"
status 1
says "port $port of 127.0.0.1: Address already in use"
holds [ ! -s out ]
answers "${url}about.json" '200 {'
ends_serving TERM
# the port is free again at once
serve "$one_tile" --http "$port"
holds [ "$url" = "http://127.0.0.1:$port/" ]
ends_serving TERM
ends

fresh 'a program that is killed'
serve "$one_tile" --http 0
answers "${url}0/0/0.exe" 404
answers "${url}0/0/0" '200 '
child=$(below $server)
kill -KILL "$child"
answers "${url}0/0/0" '502 the program that answers has ended, signal 9'
holds [ "$(cat served.err)" = 'fatyngu: the program that answers has ended, signal 9' ]
# the next request starts it anew
answers "${url}0/0/0" '200 '
child=$(below $server)
holds [ -n "$child" ]
# a server that is killed takes the program along, since its input ends
kill -KILL $server
wait $server 2>/dev/null
sleep 1
holds is_gone "$child"
ends

fresh 'an archive that is broken behind its header'
head -c $(($(stat -c %s "$one_tile") - 1)) "$one_tile" >cut.pmtiles
serve cut.pmtiles --http 0
answers "${url}0/0/0" '500 the archive is broken on the way to this tile: PastEnd'
answers "${url}about.json" '200 '
ends_serving TERM
ends

fresh 'the page and its map'
mkdir leaflet leaflet/images
echo script >leaflet/leaflet.js
echo picture >leaflet/images/layers.png
echo secret >secret.js
ln -s "$t/secret.js" other.js
served make pictures.pmtiles packed.pmtiles
export FATYNGU_LEAFLET=$t/leaflet
serve pictures.pmtiles --http 0
answers "$url" '200 text/html; charset=utf-8'
answers "${url}leaflet/leaflet.js" '200 text/javascript'
answers "${url}leaflet/images/layers.png" '200 image/png'
answers "${url}leaflet/../secret.js" 404
answers "${url}leaflet/leaflet.css" '404 there is no .*libjs-leaflet'
answers "${url}about.json" '200 .*"has_map":true'
rm leaflet/leaflet.js
answers "${url}about.json" '200 .*"has_map":false'
unset FATYNGU_LEAFLET
ends_serving TERM
ends

fresh 'where tiles are'
served make pictures.pmtiles packed.pmtiles
run "$fatyngu" show --map pictures.pmtiles
status 0
prints '^zoom 0: 1 tile, [0-9]* bytes, the largest [0-9]*; columns 0 to 0, rows 0 to 0$'
prints '^zoom 3: 30 tiles, .*; columns 0 to 4, rows 2 to 7$'
holds [ "$(tail -n 6 out | sort -u)" = '  #####' ]
cp out first
run "$fatyngu" show pictures.pmtiles --map
holds cmp -s out first
set_of a.mbtiles "insert into tiles values (0, 0, 0, x'01'), (1, 1, 0, x'0203'), (1, 0, 1, x'04'), (1, 0, 0, null), (31, 0, 0, x'01'), (7, 0, 127, x'01'), (7, 127, 0, x'010203')"
run "$fatyngu" show --map a.mbtiles
status 0
holds [ "$(sed -n 3,5p out)" = 'zoom 1: 2 tiles, 3 bytes, the largest 2; columns 0 to 1, rows 0 to 1
  #.
  .#' ]
prints '^zoom 7: 2 tiles, 4 bytes, the largest 3; columns 0 to 127, rows 0 to 127, 4 x 4 tiles a character$'
holds [ "$(tail -n 1 out)" = "  ...............................:" ]
"$fatyngu" convert a.mbtiles a.pmtiles >/dev/null 2>&1
cp out first
run "$fatyngu" show --map a.pmtiles
holds cmp -s out first
# places that are texts or halves of numbers, contents that are texts, and a column whose name an expression may have
"$real" b.mbtiles "create table tiles (zoom_level, tile_column, tile_row, tile_data, bytes); insert into tiles values ('1', '0', '1', x'0102', 0), (1.0, 1, 1, 'é', 0), (1, 0, 0, x'010203', 0), ('01', 1, 0, x'01', 0), (1, 0.5, 0, x'01', 0), (1, 2, 0, x'01', 0), (x'31', 0, 0, x'01', 0)"
run "$fatyngu" show --map b.mbtiles
status 0
holds [ "$(cat out)" = 'zoom 1: 3 tiles, 7 bytes, the largest 3; columns 0 to 1, rows 0 to 1
  ##
  #.' ]
says 'b.mbtiles: 4 rows outside the grid'
cp b.mbtiles $'caf\xe9.mbtiles'
run "$fatyngu" show --map $'caf\xe9.mbtiles'
status 0
prints '^zoom 1: 3 tiles'
# ids that are those of no zoom: the last tile of zoom 31, and a run of three behind it
(cd "$top/tools" && python3 -B -c "import sys; from models import pmtiles as pm; last = (4 ** 32 - 1) // 3 - 1
open(sys.argv[1], 'wb').write(pm.archive([(last + n, b'tile') for n in range(4)], b'{}', type=2, max_zoom=31)[0])" "$t/deep.pmtiles")
run "$fatyngu" show --map deep.pmtiles
status 0
says '^fatyngu: 3 tiles with ids beyond zoom 31 are left out$'
prints '^zoom 31: 1 tile, 4 bytes'
for words in '--map' '--map a b' '--map --entries a.pmtiles' '--map --map a.pmtiles'; do
    # shellcheck disable=SC2086
    run "$fatyngu" show $words
    status 2
    says 'usage: fatyngu show --map FILE'
done
run "$fatyngu" show --map missing
status 3
says 'missing: No such file'
for stream in '>&-' '>/dev/full'; do
    run bash -c "exec \"\$0\" show --map a.mbtiles $stream" "$fatyngu"
    status 5
    says "standard output can't be written"
done
ends

# the subcommands of the help text
subcommands() {
    "$bin/fatyngu" --help | sed '1,/^$/d; /^$/,$d; s/  .*//' | grep -o '^[a-z][a-z]*\|, [a-z][a-z]* ' | tr -d ', ' | sort -u
}

fresh 'what is installed'
run "$bin/install" "$t/prefix"
status 0
for words in 'the commands in .*prefix/bin: ' 'the page of fatyngu serve --http in ' '[0-9]* pages of the manual in .*prefix/share/man/man1$' 'the completion for bash in '; do
    says "$words"
done
for name in fatyngu tile_verify mbtiles-script $(subcommands | sed 's/^/fatyngu-/; s/-meta$/-meta-get/'); do
    holds [ -s "prefix/share/man/man1/$name.1" ]
done
holds [ -z "$(find prefix -name '*.help' -o -name '*.new')" ]
holds grep -qx '.TH FATYNGU-SERVE 1 "" "fatyngu 0.1.0"' prefix/share/man/man1/fatyngu-serve.1
holds grep -qF 'serve FILE \-\-http PORT' prefix/share/man/man1/fatyngu-serve.1
if command -v man >/dev/null && [ ! -e /etc/dpkg/dpkg.cfg.d/excludes ]; then
    for page in prefix/share/man/man1/*.1; do
        run env MANPATH="$t/prefix/share/man" MANWIDTH=100 man --warnings -l "$page"
        status 0
        holds [ ! -s err ]
    done
fi
fatyngu=$t/prefix/bin/fatyngu
served make pictures.pmtiles packed.pmtiles
PATH=/usr/bin:/bin serve pictures.pmtiles --http 0
answers "${url}0/0/0.png" '200 image/png$'
answers "$url" '200 text/html'
ends_serving TERM
run env PATH=/usr/bin:/bin "$fatyngu" show --map pictures.pmtiles
status 0
fatyngu=$bin/fatyngu
holds [ -z "$(find prefix "$bin" -name __pycache__)" ]
ends

fresh 'words that are completed'
cat >completed <<'COMPLETED'
. "$1"
COMP_WORDS=("${@:2}")
COMP_CWORD=$(($# - 2))
_fatyngu
printf '%s\n' "${COMPREPLY[@]}"
COMPLETED
completed() { bash completed "$bin/fatyngu.bash" fatyngu "$@"; }
run completed ''
# each subcommand of the help text, and no other
holds [ "$(grep -v '^--' out | sort)" = "$(subcommands)" ]
for name in $(subcommands) 'meta get' 'meta set' 'meta all'; do
    # each option of its help text, and no other
    [ "$name" != meta ] || continue
    # shellcheck disable=SC2086
    "$fatyngu" $name --help | grep -o -- '--[a-z][a-z-]*' | grep -vx -- '--help\|--version' | sort -u >wanted
    # shellcheck disable=SC2086
    completed $name -- | grep -vx -- --help | grep . | sort -u >found
    cmp -s wanted found || problem="$problem; of $name $(tr '\n' ' ' <found) and not $(tr '\n' ' ' <wanted)"
done
touch 'a file.pmtiles' other
run completed show a
holds [ "$(cat out)" = 'a file.pmtiles' ]
run completed copy a b --copy t
holds [ "$(cat out)" = tiles ]
run completed meta g
holds [ "$(cat out)" = get ]
ends
