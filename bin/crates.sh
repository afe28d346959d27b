# What the scripts that build programs share: where a tool's program is, its texts, and the crates that it stands on.
# shellcheck disable=SC2154
. "$here/common.sh"

top=$(dirname "$here")
# a crate's name has no dash
program=$(echo "$tool" | tr - _)_program
out=$top/crates/$program/out

# A text of the program's source, which alone has it: HELP or VERSION.
text() {
    awk -v begin="const $1:" '
        index($0, begin) == 1 { on = 1; sub(/^[^"]*"/, "") }
        on { last = sub(/(\\n)?";$/, ""); if (!last || $0 != "") print; if (last) exit }' "$top/crates/$program/src/main.rt"
}

# Answers a single word that asks for a text, which needs nothing built.
answer_text() {
    [ $# = 1 ] || return 0
    case $1 in
    --help | -h) asked=HELP ;;
    --version) asked=VERSION ;;
    *) return 0 ;;
    esac
    text "$asked" || fail 5 "standard output can't be written"
    exit 0
}

# the crates that a crate stands on, and itself, each after those below it
chain() {
    awk -v wanted="$1" '
        { sub(/#.*/, "") }
        /:/ { split($0, part, ":"); split(part[1], word, " "); needs[word[1]] = part[2] }
        function visit(name,   dep, n, i) {
            if (name in seen || !(name in needs)) return
            seen[name] = 1
            n = split(needs[name], dep, " ")
            for (i = 1; i <= n; i++) visit(dep[i])
            print name
        }
        END { visit(wanted) }' "$top/crates.txt"
}

# whether a file is there and newer than each source of the program's crates
is_fresh() {
    [ -e "$1" ] || return 1
    # shellcheck disable=SC2046
    [ -z "$(cd "$top" && find crates.txt $(chain "$program" | sed 's,^,crates/,') -name out -prune -o -type f \
        \( -name '*.rt' -o -name '*.antt' -o -name crates.txt \) -newer "$1" -print | head -n 1)" ]
}

# how many functions a crate has
functions() {
    find "$top/crates/$1/src" -name '*.rt' -exec cat {} + | grep -c '^ *\(pub \|pub(crate) \)\{0,1\}fn ' || true
}

# What a build needs, told before it starts.
test_build() {
    command -v rt >/dev/null ||
        fail 70 "rt isn't on PATH: it is the command of the toolchain Rattle, which proves and builds; README.md says where it comes from"
    mkdir -p "$out" 2>/dev/null && (: >"$out/.try") 2>/dev/null ||
        fail 70 "$out can't be written: build in a checkout of your own, or take an installed program (bin/install)"
    rm -f "$out/.try"
}
