# Cases of tools/check_bin: sets of odd schemas, and files of which single bytes were changed, made and compared by
# Python's sqlite3.
# shellcheck disable=SC2034,SC2154

if command -v python3 >/dev/null; then
    fresh 'sets of odd schemas'
    run python3 -B "$top/tools/checks/odd_sets.py" "$bin/mbtiles-to-pmtiles" "$t/sets"
    [ "$got" = 0 ] || problem="$problem; $(grep -v '^odd_sets: of ' out | head -n 5)"
    tail -n 1 out
    ends
    fresh 'changed bytes of files and logs'
    run python3 -B "$top/tools/checks/changed_bytes.py" "$bin/mbtiles-to-pmtiles" "$t/sets"
    [ "$got" = 0 ] || problem="$problem; $(grep -v '^changed_bytes: of ' out | head -n 5)"
    tail -n 1 out
    ends
fi
