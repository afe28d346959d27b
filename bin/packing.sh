# Packs a folder for bin/fatyngu, which has `run_program`, `help_with` and `read_places`, and tells what is passed over.
# shellcheck disable=SC2154

# tell_passed_over FOLDER: tells what of a folder is packed as no tile; with `strict` that is refused. Line feeds in
# names become signs that no number has.
tell_passed_over() {
    plain_path "$1"
    if find -H "$plain" -maxdepth 0 -printf '' 2>/dev/null; then
        said=$(find -H "$plain" -mindepth 1 ! -type d -printf '%y%Y %P\0' 2>/dev/null | tr '\n\0' '?\n' |
            LC_ALL=C awk -f "$here/passed_over.awk")
    else
        said="what is passed over can't be told, since the command find has no -printf (package findutils)"
    fi
    [ -n "$said" ] || return 0
    [ -z "$strict" ] || fail 1 "$1 is refused by --strict: $said"
    say "$1: $said"
}

# pack FOLDER OUT, with options
pack() {
    if asks_help "$@"; then
        help_with pack <<'HELP'

What is passed over is told on standard error, with the first names: files of
other names, as 0/0/0.png.gz, names that are no UTF-8, links to folders, and
devices. Hidden files, files in hidden folders, and a metadata.json in FOLDER
itself are passed over without a word. Signs and zeros in front of numbers, and
folders above the zoom don't matter: a/+1/00/0.PNG is the tile 1/0/0.

--strict    refuses a folder of which something that is told is passed over
HELP
    fi
    strict=
    ended=
    for word; do
        shift
        case $ended$word in
        --strict)
            strict=1
            continue
            ;;
        --) ended=1 ;;
        esac
        set -- "$@" "$word"
    done
    read_places "$@"
    [ ! -d "$first" ] || tell_passed_over "$first"
    run_program pack "$@"
}
