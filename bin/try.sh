# Runs the program of a tool, built once with checks in place of proofs: a quick look, which is much slower
# than the proved program.
# shellcheck disable=SC2154
tool=${tool%-unproved}
. "$here/crates.sh"
built=$out/unproved

# `rt try` builds the program in a room of its own, runs it and removes it. The build is kept by a second name, which it
# gets as soon as it is there and has until the end; it is whole once it runs. The converter has work for some seconds
# then. The others have none, and are run again until one run is seen, each from a room of its own.
build() {
    room=$(mktemp -d)
    trap 'kill "${trying-}" 2>/dev/null || true; rm -rf "$room"' EXIT
    trap 'exit 129' HUP
    trap 'exit 130' INT
    trap 'exit 143' TERM
    say 'building without proofs, a minute or two'
    case $tool in
    tileset) set -- -- bulk 100000 1 ;;
    *)
        mkdir "$room/cases"
        for number in $(seq 100); do
            : >"$room/cases/$number"
        done
        set -- --cases "$room/cases" -- "$room/none" "$room/part"
        ;;
    esac
    (cd "$top/crates/$program" && TMPDIR=$room exec rt try "$@") </dev/null >"$room/said" 2>&1 &
    trying=$!
    while kill -0 "$trying" 2>/dev/null; do
        for made in "$room"/*/*/program; do
            ln -f "$made" "$room/kept" 2>/dev/null || continue
            [ ! -e "${made%program}stdout" ] || break 2
        done
        sleep 0.02
    done
    if [ ! -e "$room/kept" ]; then
        cat "$room/said" >&2
        fail 70 "the program isn't built"
    fi
    kill "$trying" 2>/dev/null || true
    wait "$trying" || true
    cp "$room/kept" "$built.new"
    mv "$built.new" "$built"
    rm -rf "$room"
    trap - EXIT HUP INT TERM
}

answer_text "$@"
if ! is_fresh "$built"; then
    test_build
    build
fi
say "nothing is proved in this run, which takes some 3 s for any set and 7 s for each MB; bin/$tool proves the program, and then runs it"
exec "$built" "$@"
