# Completion of the words of fatyngu, for bash.

_fatyngu_options() {
    case $1 in
    show) echo --metadata --tilejson --url --entries --map ;;
    serve) echo --http --address ;;
    validate) echo --agg-hash ;;
    hash) echo --update ;;
    copy) echo --copy --mbtiles-type --on-duplicate --min-zoom --max-zoom --zoom-levels --hash-algorithm --box --bbox --apply-patch --force --skip-agg-tiles-hash --validate ;;
    patch) echo --force ;;
    pack) echo --scheme --strict ;;
    unpack) echo --scheme ;;
    convert) echo --force --verify --hash --overwrite --strict --by-script --part --ids ;;
    plain) echo --overwrite --no-verify ;;
    join) echo --overwrite --max-tiles ;;
    extract) echo --bbox --tile --minzoom --maxzoom --overwrite --max-tiles ;;
    esac
}

# the words that may stand behind an option
_fatyngu_values() {
    case $1 in
    --copy) echo all tiles metadata ;;
    --mbtiles-type) echo flat flat-with-hash normalized cache ;;
    --on-duplicate) echo override ignore abort ;;
    --hash-algorithm) echo md5 fnv1a fnv1a-decimal xxh64 xxh3 ;;
    --agg-hash) echo verify update off ;;
    --scheme) echo xyz tms ;;
    --address) echo 127.0.0.1 ::1 0.0.0.0 ;;
    --url | --http | --min-zoom | --max-zoom | --zoom-levels | --bbox | --box | --tile | --minzoom | --maxzoom | --max-tiles) echo ;;
    *) return 1 ;;
    esac
}

_fatyngu() {
    local word=${COMP_WORDS[COMP_CWORD]} subcommand=${COMP_WORDS[1]-} words
    COMPREPLY=()
    if [ "$COMP_CWORD" = 1 ]; then
        words='convert import verify extract join plain serve show tile summary validate hash meta copy patch pack unpack --help --version'
    elif [ "$COMP_CWORD" = 2 ] && [ "$subcommand" = meta ]; then
        words='get set all'
    elif words=$(_fatyngu_values "${COMP_WORDS[COMP_CWORD - 1]}"); then
        :
    else
        case $word in
        -*) words="$(_fatyngu_options "$subcommand") --help" ;;
        *)
            mapfile -t COMPREPLY < <(compgen -f -- "$word")
            return
            ;;
        esac
    fi
    mapfile -t COMPREPLY < <(compgen -W "$words" -- "$word")
}

complete -o filenames -F _fatyngu fatyngu
