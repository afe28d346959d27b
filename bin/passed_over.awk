# Tells what of a folder `fatyngu pack` passes over. Each line is the kind of an entry, as `find -printf %y%Y` has it,
# and behind a blank its path below the folder. It has to run by bytes, as in LC_ALL=C.
#
# What is taken is what the crate mb_tree takes: files, and links to files, whose paths are texts in UTF-8 and end in a
# zoom, a column and a row, each a number as std reads it. Extensions don't matter: pack refuses those that it doesn't
# know.

# whether a text is decimal digits, with a plus in front or without, of a number up to a limit
function is_number(text, limit) {
    sub(/^\+/, "", text)
    if (text !~ /^[0-9]+$/) return 0
    sub(/^0+/, "", text)
    return length(text) < 11 && text + 0 <= limit
}
# whether a path is that of a tile
function is_tile(path,   part, n, row) {
    n = split(path, part, "/")
    row = part[n]
    sub(/\.[^.]*$/, "", row)
    return n > 2 && is_number(part[n - 2], 255) && is_number(part[n - 1], 4294967295) && is_number(row, 4294967295)
}
# whether a path is a text in UTF-8
function is_text(path) {
    gsub(/\360[\220-\277][\200-\277][\200-\277]|[\361-\363][\200-\277][\200-\277][\200-\277]/, ".", path)
    gsub(/\364[\200-\217][\200-\277][\200-\277]|\340[\240-\277][\200-\277]|\355[\200-\237][\200-\277]/, ".", path)
    gsub(/[\341-\354\356\357][\200-\277][\200-\277]|[\302-\337][\200-\277]/, ".", path)
    return path !~ /[\200-\377]/
}
{
    path = substr($0, 4)
    if ((/^ff/ || /^lf/) && is_tile(path) && is_text(path)) next
    # hidden files, and the metadata that other programs write beside tiles, are no tiles to anybody
    if (path ~ /(^|\/)\./ || path == "metadata.json") next
    if (++count > 5) next
    gsub(/[\001-\037\177]/, "?", path)
    names = names (count > 1 ? ", " : "") path
}
END {
    if (!count) exit
    if (count == 1) what = "1 entry is passed over, which is no file"
    else what = count " entries are passed over, which are no files"
    print what " ZOOM/COLUMN/ROW.EXTENSION in numbers: " names (count > 5 ? " and " count - 5 " more" : "")
}
