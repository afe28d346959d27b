# Reads .mbtiles files by the command sqlite3, one process and one read transaction for each, behind a look for damage
# by another. Facts on the set come first, then its rows.
#
# A fact is a line of words; texts in it are hexadecimal, and `-` stands for null:
#   warn WORDS, refuse WORDS, none         what is said of the file, why it is refused, that it has no tiles table
#   count ROWS GRID BYTES GZIP             its rows, those in the grid, those of them with a byte, those that are gzip
#   zooms MIN MAX, size BYTES              of the rows in the grid
#   layout NAME                            the layout that its rows are printed in
#   format TEXT, bounds W S E N, center LON LAT [ZOOM]     from the metadata, in ten millionths of a degree
#   plain NAME VALUE                       a row of the metadata
#   row NAME JSON, json NAME JSON          what the archive's metadata gets from a row, and from an
#                                          object in the row `json`
# shellcheck disable=SC2154
most=${FATYNGU_MOST:-268435456}
. "$here/set_queries.sh"
. "$here/explaining.sh"

# the layout of the file $1 that has hashes, or flat
own_layout() {
    {
        sql_attach "$1"
        echo "with has(t, n) as (select m.name, count(*) from s.sqlite_master as m, pragma_table_info(m.name, 's') as c where m.type = 'table' and c.name in
                ('zoom_level', 'tile_column', 'tile_row', 'tile_data', 'tile_hash', 'tile_id') group by m.name)
            select case when exists (select 1 from has where t = 'map' and n = 4) and exists (select 1 from has where t = 'images' and n = 2) then 'normalized'
                when exists (select 1 from has where t = 'tiles_with_hash' and n = 5) then 'flat-with-hash' else 'flat' end;"
    } | exec_sqlite3 ':memory:' 2>/dev/null || echo flat
}

# makes the folder `work`, under a name that no command takes for an option or for an assignment
make_work() {
    work=$(mktemp -d) || fail 1 'no folder for files that are needed for a while; TMPDIR says where'
    plain_path "$work"
    work=$plain
}

# ends where a file that is needed for a while can't be written
fail_room() {
    fail 1 "$work can't be written; its disk may be full, and TMPDIR names another one"
}

# start_set FILE DATABASE LAYOUT: starts to read a file. Facts and rows come on file descriptor 3, and coordinates
# are kept in the database.
start_set() {
    test_trees "$1" "$work/errors"
    mkfifo "$work/lines" || fail_room
    keeps=1
    [ "$2" != ':memory:' ] || keeps=0
    { sql_attach "$1" && sql_begin && sql_tiles && sql_metadata && sql_rows "$3" $keeps; } >"$work/sql" || fail_room
    exec_sqlite3 "$2" <"$work/sql" >"$work/lines" 2>"$work/errors" &
    reader=$!
    exec 3<"$work/lines"
    rm "$work/lines"
}

# read_facts FILE: reads the facts into the folder's file `facts`, and says what is to be said. The file `left` is there
# where anything is left out.
read_facts() {
    ended=
    : >"$work/found"
    while [ -z "$ended" ] && IFS= read -r line <&3; do
        case $line in
        rows) ended=1 ;;
        none) fail 3 "$1 has no table or view named tiles" ;;
        'refuse '*) fail 1 "$1: ${line#refuse }" ;;
        'warn '*)
            say "$1: ${line#warn }"
            case $line in *'left out'* | *'more than once'*) : >"$work/left" ;; esac
            ;;
        *) printf '%s\n' "$line" || fail_room ;;
        esac
    done >>"$work/found"
    if [ -z "$ended" ]; then
        end_set "$1"
        fail 1 "$1: sqlite3 ended before its rows"
    fi
    only_utf8 "$1" <"$work/found" >"$work/facts" || fail_room
}

# hands on the facts whose texts are UTF-8 without zero bytes, and names the others on standard error
only_utf8() {
    LC_ALL=C FILE=$1 LEFT=$work/left awk -v tool="$tool" '
        function byte(at) { return 16 * (index(digits, substr(text, at, 1)) - 1) + index(digits, substr(text, at + 1, 1)) - 1 }
        function is_utf8(given,   at, first, more, low, high, next_byte) {
            text = given
            if (text ~ /^([1-7].|0[1-9A-F])*$/) return 1
            for (at = 1; at < length(text); at += 2) {
                first = byte(at)
                if (first == 0) return 0
                if (first < 128) continue
                low = 128; high = 191
                if (first >= 194 && first < 224) more = 1
                else if (first >= 224 && first < 240) { more = 2; if (first == 224) low = 160; if (first == 237) high = 159 }
                else if (first >= 240 && first < 245) { more = 3; if (first == 240) low = 144; if (first == 244) high = 143 }
                else return 0
                for (; more > 0; more--) {
                    at += 2
                    next_byte = at < length(text) ? byte(at) : 0
                    if (next_byte < low || next_byte > high) return 0
                    low = 128; high = 191
                }
            }
            return 1
        }
        function shown(given,   at, out, code) {
            text = given
            for (at = 1; at < length(text); at += 2) { code = byte(at); out = out (code > 32 && code < 127 ? sprintf("%c", code) : "?") }
            return out
        }
        BEGIN { digits = "0123456789ABCDEF"; file = ENVIRON["FILE"] }
        $1 == "plain" || $1 == "row" || $1 == "json" || $1 == "format" {
            if (!is_utf8($2) || $3 != "-" && !is_utf8($3)) {
                if ($1 != "row" && $1 != "format") print tool ": " file ": " shown($2) " in the metadata is no text in UTF-8, and is left out" | "cat >&2"
                printf "" >ENVIRON["LEFT"]
                next
            }
        }
        { print }'
}

# Waits for the end of the reader, and says why it failed where it did.
end_set() {
    exec 3<&-
    wait "$reader" && return 0
    reader=
    explain "$1" "$work/errors"
}

# print_options TYPE ZOOMS FACTS..: the options of what comes of a base and its patches, from their facts in order. TYPE
# may be empty; ZOOMS are two numbers, or empty. Warnings go to standard error.
print_options() {
    asked=$1
    zooms=$2
    shift 2
    LC_ALL=C awk -v asked="$asked" -v zooms="$zooms" -v tool="$tool" '
        function text_of(given,   at, out) {
            for (at = 1; at < length(given); at += 2)
                out = out sprintf("%c", 16 * (index(digits, substr(given, at, 1)) - 1) + index(digits, substr(given, at + 1, 1)) - 1)
            return out
        }
        function type_of(given,   low) {
            low = tolower(given)
            gsub(/[ \t]/, "", low)
            sub(/^(image|application)\//, "", low)
            if (low ~ /^(pbf|mvt|x-protobuf|protobuf|vnd\.mapbox-vector-tile)$/) return "mvt"
            if (low ~ /^(jpg|jpeg)$/) return "jpeg"
            if (low ~ /^(png|webp|avif|mlt)$/) return low
            return "unknown"
        }
        function warn(words) { print tool ": " words | "cat >&2" }
        BEGIN { digits = "0123456789ABCDEF" }
        $1 == "count" { filled += $4; gzip += $5 }
        $1 == "plain" && $3 == "-" { unset = text_of($2); delete special[unset] }
        $1 == "format" { special["format"] = text_of($2) }
        $1 == "bounds" || $1 == "center" { name = $1; sub(/^[a-z]+ /, ""); special[name] = $0 }
        $1 == "hasjson" { split("", object) }
        $1 == "row" && $3 == "-" { delete row[$2]; next }
        $1 == "row" || $1 == "json" { if (!($2 in place)) { place[$2] = ++names; name_at[names] = $2 } }
        $1 == "row" { row[$2] = $3 }
        $1 == "json" && !($2 in object) { object[$2] = $3 }
        END {
            type = asked
            if (type == "") {
                type = type_of(special["format"])
                if (type == "unknown") warn(special["format"] == "" ? "no metadata says which type the tiles have, and the archive says unknown" : \
                    "the metadata has the format " special["format"] ", which isn" sprintf("%c", 39) "t known, and the archive says unknown")
            }
            print "option type " type
            if (type == "mvt" && gzip < filled) {
                print "option tile-compression " (gzip == 0 ? "none" : "unknown")
                if (gzip > 0) warn(gzip " of " filled " tiles are gzip and the others aren" sprintf("%c", 39) "t; the archive says unknown")
            }
            split(zooms, zoom, " ")
            print "option min-zoom " zoom[1] + 0
            print "option max-zoom " zoom[2] + 0
            if ("bounds" in special) print "option bounds " special["bounds"]
            if ("center" in special) {
                parts = split(special["center"], center, " ")
                print "option center " center[1] " " center[2]
                if (parts > 2) print "option center-zoom " center[3]
            } else if ("bounds" in special) {
                # the middle of the bounds at the least zoom
                split(special["bounds"], bound, " ")
                print "option center " int((bound[1] + bound[3]) / 2) + 0 " " int((bound[2] + bound[4]) / 2) + 0
                print "option center-zoom " zoom[1] + 0
            }
            for (at = 1; at <= names; at++) {
                name = name_at[at]
                if (name in row) value = row[name]
                else if (name in object) value = object[name]
                else continue
                metadata = metadata (metadata == "" ? "" : "2C") name "3A" value
            }
            if (metadata != "") {
                metadata = "7B" metadata "7D"
                gsub(/../, "%&", metadata)
                print "option metadata t" metadata
            }
        }' "$@"
}

# the type of tiles that a word names, or nothing
type_named() {
    case $1 in
    unknown | mvt | png | jpeg | webp | avif | mlt) echo "$1" ;;
    pbf) echo mvt ;;
    jpg) echo jpeg ;;
    esac
}
