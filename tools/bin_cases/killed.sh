# Cases of tools/check_bin: commands that write are killed at random moments, and write to a full disk or into the place
# of a file. What is there afterwards is what was there before or what a whole run makes.
# shellcheck disable=SC2034,SC2154

sum_of() { "$real" "$1" "select zoom_level, tile_column, tile_row, hex(tile_data) from tiles order by 1, 2, 3; select name, value from metadata order by name" 2>/dev/null | cksum; }
# the sets of a table of 1,500 tiles with 200 bytes each, a patch to it and a folder of its tiles
written_sets() {
    set_of old.mbtiles "with recursive n(v) as (values (0) union all select v + 1 from n where v < 1499) insert into tiles select 8, v % 256, v / 256, randomblob(200) from n; insert into metadata values ('name', 'old'), ('format', 'png')"
    "$real" old.mbtiles 'create unique index i on tiles (zoom_level, tile_column, tile_row)'
    set_of change.mbtiles "insert into tiles values (8, 0, 0, null), (8, 9, 9, x'04')"
    "$bin/mbtiles-to-pmtiles" old.mbtiles old.pmtiles >/dev/null 2>&1
    "$fatyngu" extract old.pmtiles part.pmtiles '8 0 0 100 100' >/dev/null 2>&1
    "$fatyngu" unpack old.mbtiles files >/dev/null 2>&1
}
# prepare PATH: what is at the path before a run: the set, where OUT is a set that is there, or else nothing
prepare() {
    rm -rf "$1" "$1".new "$1.new-wal"
    case $1 in
    there.mbtiles) cp old.mbtiles there.mbtiles ;;
    there.pmtiles) head -c 5000 /dev/zero >there.pmtiles ;;
    esac
}
# state PATH: what is there, as a word
state() {
    case $1 in
    *.mbtiles) [ ! -e "$1" ] || sum_of "$1" ;;
    *.pmtiles) [ ! -e "$1" ] || cksum <"$1" ;;
    *) [ ! -e "$1" ] || (cd "$1" && find . -type f -name '*.png' -exec cksum {} + | sort | cksum) ;;
    esac
}
# each file of a folder has the bytes of the set, whichever of them are there
are_whole() {
    (cd "$1" 2>/dev/null || exit 0
    find . -type f -name '[0-9]*.png' | while read -r file; do
        cmp -s "$file" "../files/$file" || exit 1
    done)
}
# end_group PROCESS SECONDS: kills a run that leads a group of processes, and all that it started, after some time
end_group() {
    sleep "$2"
    kill -KILL -- "-$1" 2>/dev/null
    wait "$1" 2>/dev/null
}
# kills OUT WORDS..: fifty runs that write OUT, each killed at some moment of the length of a
# whole one or a little later
kills() {
    local out=$1 before after now length started delay
    shift
    prepare "$out"
    before=$(state "$out")
    started=$(date +%s%N)
    run "$fatyngu" "$@"
    status 0
    length=$((($(date +%s%N) - started) / 1000000))
    after=$(state "$out")
    holds [ "$before" != "$after" ]
    for _ in $(seq 50); do
        prepare "$out"
        setsid "$fatyngu" "$@" >/dev/null 2>&1 </dev/null &
        delay=$((RANDOM % (length + length / 4 + 1)))
        end_group $! "$((delay / 1000)).$(printf %03d $((delay % 1000)))"
        now=$(state "$out")
        case $out in
        folder) holds are_whole folder ;;
        *) holds [ "$now" = "$before" -o "$now" = "$after" ] ;;
        esac
        case $out in
        *.mbtiles) [ ! -e "$out" ] || holds [ "$("$real" "$out" 'pragma integrity_check')" = ok ] ;;
        esac
    done
    # a run after one that was killed; plain makes what it makes in a folder of its own
    rm -rf .pmtiles-plain.*
    case $out in
    there.*) : ;;
    *) rm -rf "$out" ;;
    esac
    run "$fatyngu" "$@"
    status 0
    holds [ "$(state "$out")" = "$after" ]
    holds [ -z "$(find . -name '*.new' -o -name '*.new-wal' -o -name '*-journal')" ]
}

fresh 'commands that make a file, killed'
written_sets
kills fresh.mbtiles copy old.mbtiles fresh.mbtiles
kills fresh.mbtiles copy old.mbtiles fresh.mbtiles --apply-patch change.mbtiles --force
kills fresh.mbtiles pack files fresh.mbtiles
kills fresh.mbtiles import old.pmtiles fresh.mbtiles
kills fresh.pmtiles convert old.mbtiles fresh.pmtiles
kills fresh.pmtiles extract old.pmtiles fresh.pmtiles '8 0 0 200 255'
kills fresh.pmtiles join old.pmtiles part.pmtiles fresh.pmtiles
kills folder unpack old.mbtiles folder
ends

fresh 'commands that change a file, killed'
written_sets
kills there.mbtiles meta set there.mbtiles name new
kills there.mbtiles hash --update there.mbtiles
kills there.mbtiles validate --agg-hash update there.mbtiles
kills there.mbtiles patch there.mbtiles change.mbtiles --force
kills there.mbtiles copy change.mbtiles there.mbtiles --on-duplicate override
kills there.pmtiles convert --overwrite old.mbtiles there.pmtiles
kills there.pmtiles extract old.pmtiles there.pmtiles '8 0 0 200 255' --overwrite
kills there.pmtiles join old.pmtiles part.pmtiles there.pmtiles --overwrite
if command -v python3 >/dev/null; then
    python3 "$top/tools/checks/compressed_archive.py" old.pmtiles packed.pmtiles
    kills there.pmtiles plain --overwrite --no-verify packed.pmtiles there.pmtiles
fi
ends

# fails_full NAME WORDS..: a run that has no room on the small disk ends by status 6, and leaves what was there
fails_full() {
    local name=$1 listed before
    shift
    listed=$(ls -A "$room/small")
    before=$(state "$room/small/$name")
    run "$fatyngu" "$@"
    status 6
    says "can't be written"
    holds [ "$(ls -A "$room/small")" = "$listed" ]
    holds [ "$(state "$room/small/$name")" = "$before" ]
}
if [ "$(id -u)" = 0 ] && mkdir -p "$room/small" && mount -t tmpfs -o size=600k none "$room/small" 2>/dev/null; then
    fresh 'commands on a full disk'
    written_sets
    small=$room/small
    cp old.mbtiles "$small/there.mbtiles"
    fails_full there.mbtiles meta set "$small/there.mbtiles" name new
    fails_full there.mbtiles hash --update "$small/there.mbtiles"
    fails_full there.mbtiles validate --agg-hash update "$small/there.mbtiles"
    fails_full there.mbtiles patch "$small/there.mbtiles" change.mbtiles --force
    fails_full there.mbtiles copy change.mbtiles "$small/there.mbtiles" --on-duplicate override
    fails_full fresh.mbtiles copy old.mbtiles "$small/fresh.mbtiles"
    fails_full fresh.mbtiles copy old.mbtiles "$small/fresh.mbtiles" --apply-patch change.mbtiles --force
    fails_full fresh.mbtiles pack files "$small/fresh.mbtiles"
    fails_full fresh.mbtiles import old.pmtiles "$small/fresh.mbtiles"
    fails_full fresh.pmtiles convert old.mbtiles "$small/fresh.pmtiles"
    fails_full fresh.pmtiles extract old.pmtiles "$small/fresh.pmtiles" '8 0 0 200 255'
    fails_full fresh.pmtiles join old.pmtiles part.pmtiles "$small/fresh.pmtiles"
    if command -v python3 >/dev/null; then
        python3 "$top/tools/checks/compressed_archive.py" old.pmtiles packed.pmtiles
        run "$fatyngu" plain packed.pmtiles "$small/fresh.pmtiles"
        status 6
        holds [ "$(ls -A "$small")" = there.mbtiles ]
    fi
    # files that were written so far stay, each of them whole
    run "$fatyngu" unpack old.mbtiles "$small/folder"
    status 6
    says 'stay'
    holds eval '(cd "$small" && ln -s "$t/files" files && cd folder && find . -type f -name "[0-9]*.png" | while read -r file; do cmp -s "$file" "../files/$file" || exit 1; done)'
    rm -rf "$small/folder" "$small/files"
    # and one that is only read
    before=$(state "$small/there.mbtiles")
    mount -o remount,ro "$small"
    for words in "meta set $small/there.mbtiles name new" "hash --update $small/there.mbtiles" "patch $small/there.mbtiles change.mbtiles --force" \
        "copy old.mbtiles $small/fresh.mbtiles" "pack files $small/fresh.mbtiles" "import old.pmtiles $small/fresh.mbtiles" "convert old.mbtiles $small/fresh.pmtiles" "join old.pmtiles part.pmtiles $small/fresh.pmtiles" \
        "unpack old.mbtiles $small/folder"; do
        # shellcheck disable=SC2086
        run "$fatyngu" $words
        status 6
        holds [ "$(ls -A "$small")" = there.mbtiles ]
    done
    holds [ "$(state "$small/there.mbtiles")" = "$before" ]
    ends
    umount "$small"
else
    skips 'nothing can be mounted here, so commands on a full disk are not tried'
fi

fresh 'access that is kept'
written_sets
access_of() { stat -c '%a %u %g' "$1"; }
for mode in 600 640 444; do
    for words in 'convert --overwrite old.mbtiles' 'convert --overwrite --by-script old.mbtiles' 'extract old.pmtiles --overwrite --' 'plain --overwrite --no-verify packed.pmtiles'; do
        case $words in
        plain*)
            command -v python3 >/dev/null || continue
            [ -e packed.pmtiles ] || python3 "$top/tools/checks/compressed_archive.py" old.pmtiles packed.pmtiles
            ;;
        esac
        rm -f there.pmtiles
        echo before >there.pmtiles
        [ "$(id -u)" != 0 ] || chown 1:2 there.pmtiles
        chmod $mode there.pmtiles
        before=$(access_of there.pmtiles)
        case $words in
        extract*) run "$fatyngu" extract --overwrite old.pmtiles there.pmtiles '8 0 0 255 255' ;;
        *)
            # shellcheck disable=SC2086
            run "$fatyngu" $words there.pmtiles
            ;;
        esac
        status 0
        holds [ "$(access_of there.pmtiles)" = "$before" ]
        holds [ "$(stat -c %s there.pmtiles)" -gt 1000 ]
    done
done
cp old.mbtiles there.mbtiles
[ "$(id -u)" != 0 ] || chown 1:2 there.mbtiles
chmod 660 there.mbtiles
before=$(access_of there.mbtiles)
run "$fatyngu" meta set there.mbtiles name new
status 0
holds [ "$(access_of there.mbtiles)" = "$before" ]
ends
