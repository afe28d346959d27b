# Makes an archive of .mbtiles files by way of a script, for bin/mbtiles-to-pmtiles --by-script, which has set `force`,
# `verify`, `overwrite` and `strict`. The words are the sets and OUT.
#
# Only the table or view `tiles` of each file is read, and the stored hashes of tiles alone where --verify asks for them
# and they have the form of digests. The three lines at the end are those of the other way; what the archive has is
# compared with the files before it is put in place.
# shellcheck disable=SC2154
. "$here/sets.sh"

finish() {
    trap '' HUP INT QUIT TERM
    for started in ${reader-} ${copier-} ${converter-}; do
        kill "$started" 2>/dev/null || true
        wait "$started" 2>/dev/null || true
    done
    [ -z "${work-}" ] || rm -rf "$work"
    [ -z "${room-}" ] || rm -rf "$room"
}
trap finish EXIT
trap 'exit 129' HUP
trap 'exit 130' INT
trap 'exit 131' QUIT
trap 'exit 143' TERM

# the last word is OUT
sets=$(($# - 1))
eval "out=\${$#}"
# shellcheck disable=SC2154
shown_out=$out
plain_path "$out"
out=$plain
test_sqlite3 'the command sqlite3 is missing (package sqlite3)'
number=0
for file; do
    number=$((number + 1))
    [ $number -le $sets ] || break
    ! [ "$file" -ef "$out" ] || fail 1 "$shown_out is one of the sets; give another name for the archive"
done
if [ -e "$out" ] || [ -L "$out" ]; then
    [ -n "$overwrite" ] || fail 1 "$shown_out is there; --overwrite replaces it"
    [ -f "$out" ] || fail 1 "$shown_out is no regular file"
fi
make_work
folder=${out%/*}
folder=${folder:-/}
[ -d "$folder" ] || fail 6 "there is no folder $folder"
room=$(mktemp -d "$folder/.mbtiles-to-pmtiles.XXXXXX") || {
    room=
    fail 6 "$folder can't be written"
}

# the rows of the metadata, where hashes are tested
metadata_rows() {
    [ -n "$verify" ] || [ $sets -gt 1 ] || return 0
    LC_ALL=C awk '$1 == "plain" { gsub(/../, "%&", $2); v = $3; gsub(/../, "%&", v); print "row metadata t" $2 " " (v == "-" ? "n" : "t" v) }' "$1"
}

# Each file becomes its part of the script.
number=0
facts=
tested=
for file; do
    [ $number -lt $sets ] || break
    begin_step "reading $file"
    layout=flat
    [ -z "$verify" ] || layout=$(own_layout "$file")
    start_set "$file" "$work/kept" "$layout"
    read_facts "$file"
    [ -z "$strict" ] || [ ! -e "$work/left" ] || fail 1 "$file is refused: --strict takes no set of which rows or metadata are left out"
    mv "$work/facts" "$work/$number.facts"
    facts="$facts $number.facts"
    layout=$(sed -n 's/^layout //p' "$work/$number.facts")
    [ "$layout" = flat ] || tested=1
    kind=patch
    [ $number -gt 0 ] || kind=base
    { echo "$kind $layout" && metadata_rows "$work/$number.facts" && cat <&3; } >"$work/$number.part" || fail_room
    end_set "$file"
    reader=
    [ "$(tail -n 1 "$work/$number.part")" = "# rows $(grep -c '^row \(tiles\|tiles_with_hash\|map\) ' "$work/$number.part" || true)" ] ||
        fail 1 "$file: not all of its rows came; try again"
    end_step
    number=$((number + 1))
done

[ -z "$verify" ] || grep -qi '^plain 6167675F74696C65735F68617368\(5F61667465725F6170706C79\)\{0,1\} [0-9A-F]' "$work"/*.facts || hashless=1
[ -z "$verify" ] || [ -z "${hashless-}" ] || [ -n "$tested" ] ||
    fail 1 "$1 has no hashes that --verify could test: no agg_tiles_hash in the metadata, and none of its tiles"
said=$(sqlite3 -init /dev/null -batch "$work/kept" "select count(*) || ' ' || coalesce(min(z), '') || ' ' || coalesce(max(z), '') from kept where filled")

# options, and the parts in their order
assemble() {
    # shellcheck disable=SC2086
    (cd "$work" && print_options '' "${said#* }" $facts) || return 1
    [ -z "$force" ] || echo 'option force' || return 1
    [ -z "$verify" ] || [ -n "${hashless-}" ] || echo 'option verify' || return 1
    number=0
    while [ $number -lt $sets ]; do
        cat "$work/$number.part" && rm "$work/$number.part" || return 1
        number=$((number + 1))
    done
}
assemble >"$work/script" || fail_room
size=$(wc -c <"$work/script")
[ "$size" -le "$most" ] || fail 8 "the sets need a script of $size bytes, more than the $most that the converter takes; convert fewer zooms or a part of the area"

# the name of the set of a number, 0 for the base
set_at() {
    shift "$1"
    shift
    printf '%s\n' "$1"
}

# why the converter refused, with files and tiles in place of numbers of lines
explain_report() {
    status=$1
    shift
    words=$(FROM=$room/out TO=$shown_out LC_ALL=C awk 'BEGIN { from = ENVIRON["FROM"]; to = ENVIRON["TO"] }
        { at = index($0, from); if (at) $0 = substr($0, 1, at - 1) to substr($0, at + length(from)) }
        /^tileset: / { sub(/^tileset: /, ""); last = $0 } END { print last }' "$work/said")
    words=$(printf '%s\n' "$words" | sed "s/^the script's base is refused: //; s/^patch [0-9]* of the script is refused: //; s/as a flat set, without its hashes, it is taken/without --verify it is taken/
        s/option force/--force/; s/without option verify none is asked for/without --verify none is asked for/")
    reason=$(tail -n 1 "$work/report")
    case $reason in
    'refused: store '*)
        reason=${reason#refused: store }
        fail 1 "$(set_at "${reason%% *}" "$@") is refused: $words"
        ;;
    'bad script: line '*)
        line=${reason#bad script: line }
        number=$(head -n "$line" "$work/script" | grep -c '^patch ' || true)
        row=$(sed -n "${line}{p;q;}" "$work/script" | cut -c1-80 | sed -n 's/^row [a-z_]* i\([0-9]*\) i\([0-9]*\) i\([0-9]*\) .*/tile_column \2, tile_row \3 of zoom \1/p')
        fail 1 "$(set_at "$number" "$@") is refused: line $line of the script${row:+, $row,} isn't taken or repeats a row"
        ;;
    esac
    [ -n "$words" ] || words=$reason
    [ "$status" -le 3 ] && fail 1 "$words"
    fail "$status" "$words"
}

begin_step "converting a script of $size bytes"
"$here/tileset" convert file "$room/out" <"$work/script" >"$work/report" 2>"$work/said" &
converter=$!
status=0
wait "$converter" || status=$?
converter=
if [ "$status" != 0 ]; then
    [ "$status" != 70 ] || { cat "$work/said" >&2; exit 1; }
    explain_report "$status" "$@"
fi
end_step

# what the converter counted has to be what the files have
reported() {
    sed -n "s/^$1 //p" "$work/report"
}
[ "$(reported addressed)" = "${said%% *}" ] || fail 1 "the archive has $(reported addressed) tiles and the sets have ${said%% *}; nothing is left of it"
sync "$room/out" || fail 6 "$shown_out can't be synced to its disk"
put_in_place "$room/out" "$out" "$shown_out"
echo "tiles $(reported addressed), contents $(reported contents)"
echo "bytes $(reported length)"
[ -z "$hash$verify" ] && [ "$sets" = 1 ] || echo "aggregate $(reported aggregate)"
