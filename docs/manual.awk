# Makes the manual page of the text of the commands:
#
#     awk -v version=1.0 -f docs/manual.awk docs/COMMANDS.md >docs/cola.1
#
# The first paragraph is the name, the first table the synopsis, a title a section or a subsection, a row of a table an
# entry, and an indented line an example.

# Text as roff takes it. Words in backquotes are bold; in these a quote and a hyphen are those of the keyboard.
function prose(text,    part, count, at, out) {
    count = split(text, part, "`")
    for (at = 1; at <= count; at++) {
        if (part[at] != "") out = out (at % 2 ? common(part[at]) : "\\fB" code(part[at]) "\\fR")
    }
    return out
}
function common(text) {
    gsub(/\\/, "\\e", text)
    gsub(/\^/, "\\(ha", text)
    return text
}
function code(text) {
    text = common(text)
    gsub(/-/, "\\-", text)
    gsub(/'/, "\\(aq", text)
    gsub(/~/, "\\(ti", text)
    return text
}
# Text that stands at the beginning of a line, where it is no request.
function safe(text) {
    return (text ~ /^[.']/ ? "\\&" : "") text
}
# The words of a mode: what is typed is bold, what is put in its place is in italics.
function synopsis(words,    part, count, at, out, it) {
    count = split(words, part, " ")
    out = "\\fBcola\\fR"
    for (at = 1; at <= count; at++) {
        it = part[at]
        gsub(/[][]/, "", it)
        it = (it ~ /^-|^[a-z]../ ? "\\fB" : "\\fI") code(it) "\\fR"
        out = out " " (part[at] ~ /^\[/ ? "[" : "") it (part[at] ~ /\]$/ ? "]" : "")
    }
    return out
}
function begin_section(title) {
    if (title == "STATUSES") title = "EXIT STATUS"
    print ".SH " (title ~ / / ? "\"" title "\"" : title)
}
# The synopsis stands before the text behind the name, which was held back.
function end_name() {
    print ".SH SYNOPSIS"
    printf "%s", calls
    print ".SH DESCRIPTION"
    printf "%s", held
    named = 2
}
function put(text) {
    if (named < 2) held = held text "\n"
    else print text
}
function end_example() {
    if (example) { put(".fi"); put(".RE") }
    example = 0
}

FNR == 1 {
    print ".\\\" Made of docs/COMMANDS.md by docs/manual.awk."
    printf ".TH COLA 1 \"\" \"cola %s\" \"User Commands\"\n", version
    next
}
/^    / {
    if (!example) { put(".PP"); put(".RS 4"); put(".nf"); example = 1 }
    put(safe(code(substr($0, 5))))
    next
}
{ end_example() }
!/^\|/ { table = 0 }
/^$/ || /^<!--/ || /^\|[-|]*$/ { next }
/^## Modes$/ { modes = 1; next }
/^#/ {
    if (named < 2) end_name()
    if (modes == 1) { print ".SH MODES"; printf "%s", entries; modes = 2 }
    depth = length($1)
    title = toupper(substr($0, depth + 2))
    if (depth == 2) begin_section(title)
    else print ".SS " substr($0, depth + 2)
    next
}
/^\|/ {
    count = split(substr($0, 3, length($0) - 4), cell, / \| /)
    if (!table) { table = 1; for (at = 3; at <= count; at++) name[at] = cell[at]; next }
    if (modes == 1) {
        gsub(/`/, "", cell[1])
        calls = calls (calls == "" ? "" : ".br\n") synopsis(cell[1]) "\n"
        entries = entries ".TP\n" synopsis(cell[1]) "\n" prose(cell[2]) "\n"
        next
    }
    print ".TP"
    print "\\fB" prose(cell[1]) "\\fR"
    print safe(prose(cell[2]))
    for (at = 3; at <= count; at++) { print ".br"; print name[at] ": " prose(cell[at]) }
    next
}
!named {
    text = $0
    sub(/\.$/, "", text)
    print ".SH NAME"
    print "cola \\- " tolower(substr(text, 1, 1)) substr(text, 2)
    named = 1
    next
}
modes == 1 { entries = entries ".PP\n" prose($0) "\n"; next }
{
    put(".PP")
    put(safe(prose($0)))
}
END { end_example() }
