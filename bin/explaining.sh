# How sqlite3 is run over the file of a set, and why it couldn't read it.
# shellcheck disable=SC2154

# exec_sqlite3 WORDS..: sqlite3 in the place of a subshell or of a command in the background. What the schema of a set
# calls may only compute: `edit`, a function of this command, would run any command. CHECK constraints, which the pragma
# doesn't hold back, aren't parsed of a file that is opened for reading alone, as each set is.
exec_sqlite3() {
    exec sqlite3 -init /dev/null -batch -cmd 'pragma trusted_schema = off' "$@"
}

# test_sqlite3 WORDS: ends where there is no sqlite3, by these words, or one that doesn't know that pragma
test_sqlite3() {
    command -v sqlite3 >/dev/null || fail 1 "$1"
    [ "$(exec_sqlite3 ':memory:' 'pragma trusted_schema' </dev/null 2>/dev/null)" = 0 ] ||
        fail 1 'the command sqlite3 has to be 3.31 or newer: an older one runs commands that a set names'
}

# explain FILE ERRORS: says it by the words that sqlite3 left in a file, and ends
explain() {
    words=$(sed -n '/^[A-Za-z ]*[Ee]rror[^:]*: */{s///; s/^in prepare, //; s/^stepping, //; /./p;}' "$2" | tail -n 1)
    [ -n "$words" ] || words=$(sed -n '/./p' "$2" | tail -n 1)
    case $words in
    *locked* | *busy*) fail 1 "$1 is locked by another program; try again when that has ended" ;;
    *'not a database'* | *encrypted*) fail 3 "$1 is no SQLite database" ;;
    *'same text encoding'*) fail 1 "$1 has its texts in UTF-16, which a script can't hold; without --by-script it is rewritten first" ;;
    *'disk is full'* | *'disk I/O error'*) fail_room ;;
    *'unsafe use of'*) fail 1 "$1 is refused: its schema makes $words, which may do more than compute" ;;
    *malformed* | *corrupt*) fail 1 "$1 is damaged: $words" ;;
    *'unable to open'* | *readonly*) explain_unopened "$1" "$words" ;;
    '') fail 1 "$1: sqlite3 ended before its last row" ;;
    *) fail 1 "$1 isn't read: $words" ;;
    esac
}

# test_trees FILE ERRORS: ends where SQLite finds the pages of a set's file damaged, or its indexes, since it reads past
# some damage and gives fewer rows. ERRORS is a file for what sqlite3 says.
test_trees() {
    damage=$(damage_of "$1" "$2" 1000000 'pragma integrity_check(1000000)') || damage=$(damage_beside "$1" "$2") ||
        explain "$1" "$2"
    [ -z "$damage" ] || fail 1 "$1 is damaged: $damage"
}

# damage_of FILE ERRORS MOST PRAGMAS: the first damage that SQLite tells, or that it tells MOST faults, behind which
# others may be; fails where sqlite3 does. Values that don't fit their columns, and pages that nothing uses, are no
# damage. Such lines are known by their beginning alone, since the names behind it are the file's own.
damage_of() {
    {
        (exec_sqlite3 "$(uri "$1")" '.timeout 5000' "$4") </dev/null 2>"$2" && echo whole || echo failed
    } | LC_ALL=C awk -v most="$3" '
        function is_damage(said) {
            if (said ~ /^(ok|[*][*][*] in database main [*][*][*]|Page [0-9]+( is|:) never used)$/) return 0
            return said !~ /^(NULL|NUMERIC|TEXT|non-[A-Z]+) value in |^(Main f|F)reelist: /
        }
        NR > 1 && damage == "" && is_damage(line) { damage = line }
        { line = $0 }
        END {
            if (damage == "" && line == "failed") exit 1
            if (damage == "" && NR > most) damage = "it has " most " faults or more"
            if (damage != "") print damage
        }'
}

# damage_beside FILE ERRORS: the same where sqlite3 lacks a function or an order of an index, and so can't compare it.
# Other tables may have such an index where `tiles` and `metadata` are tables themselves.
damage_beside() {
    grep -qi 'no such collation\|unknown function\|no such function' "$2" || return 1
    pragmas=$(exec_sqlite3 "$(uri "$1")" '.timeout 5000' "select case when min(rootpage) > 0 then
        group_concat('pragma integrity_check(' || name || ');', ' ') end from sqlite_master
        where lower(name) in ('tiles', 'metadata') and type in ('table', 'view')" </dev/null 2>/dev/null) || return 1
    [ -n "$pragmas" ] && damage_of "$1" "$2" 100 "pragma quick_check(100); $pragmas"
}

# why SQLite can't open a file that is there
explain_unopened() {
    beside=$(readlink -f -- "$1" 2>/dev/null) || beside=$1
    if [ -e "$beside-journal" ]; then
        fail 1 "$1 has a rollback journal beside it: another program writes it, or was cut off; a program that may write it, as sqlite3, has to open it once"
    fi
    if [ "$(od -An -tu1 -j18 -N1 <"$1" | tr -d ' ')" = 2 ]; then
        fail 1 "$1 is in WAL mode, and SQLite can't read that where it can't write the folder or open the log: copy the file and its log into a folder of your own"
    fi
    fail 1 "$1 can't be opened by SQLite: $2"
}
