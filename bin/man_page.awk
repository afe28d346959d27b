# Makes a page of the manual of a help text: awk -v name=NAME -v version=VERSION -f man_page.awk
# Paragraphs that have columns keep their lines.
function escaped(line) {
    gsub(/\\/, "\\e", line)
    gsub(/-/, "\\-", line)
    return line ~ /^[.']/ ? "\\&" line : line
}
function end_paragraph(   at, text) {
    if (!lines) return
    for (at = 1; at <= lines; at++) text = text escaped(line_at[at]) "\n"
    # statuses come last
    if (sub(/^status: /, "", text)) statuses = statuses ".SH EXIT STATUS\n" text
    else printf "%s%s%s", ".PP\n" (columns ? ".EX\n" : ""), text, columns ? ".EE\n" : ""
    lines = columns = 0
}
{ all[NR] = $0 }
END {
    # the name is told by the first sentence that isn't the usage
    for (at = 1; at <= NR; at++) if (all[at] !~ /^usage: /) told = told " " all[at]
    sub(/^ +/, "", told)
    if (match(told, /[.;:,] /)) told = substr(told, 1, RSTART - 1)
    sub(/\.$/, "", told)
    print ".TH " toupper(name) " 1 \"\" \"" version "\""
    print ".SH NAME"
    print escaped(name) " \\- " escaped(tolower(substr(told, 1, 1)) substr(told, 2))
    print ".SH SYNOPSIS"
    for (at = 1; at <= NR; at++) if (all[at] ~ /^usage: /) print escaped(substr(all[at], 8))
    print ".SH DESCRIPTION"
    for (at = 1; at <= NR; at++) {
        if (all[at] == "") end_paragraph()
        else if (all[at] !~ /^usage: /) {
            line_at[++lines] = all[at]
            if (all[at] ~ /^ |[^ ]  +[^ ]/) columns = 1
        }
    }
    end_paragraph()
    printf "%s", statuses
    if (name != "fatyngu") print ".SH SEE ALSO\n.BR fatyngu (1)"
}
