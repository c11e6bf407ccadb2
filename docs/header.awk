# Makes the manual page of the library for C of its headers:
#
#     awk -v version=1.0 -f docs/header.awk include/cola.h bindings/c/cola_file.h >cola.3
#
# A header begins with a comment, which says what it is for. Behind it, parted by empty lines, are pieces of code, each with its
# comment before it: the enumerations of answers, calls, and types and limits, which are shown as they are.

# Text as roff takes it, with the names of the library in bold.
function prose(text) {
    gsub(/\\/, "\\e", text)
    gsub(/COLA_[A-Z0-9_]+/, "\\fB&\\fR", text)
    gsub(/cola_[a-z_]+(\.h)?/, "\\fB&\\fR", text)
    return (text ~ /^[.']/ ? "\\&" : "") text
}
function code(text) {
    gsub(/\\/, "\\e", text)
    gsub(/-/, "\\-", text)
    gsub(/"/, "\\(dq", text)
    return (text ~ /^[.']/ ? "\\&" : "") text
}
# The paragraphs and the examples of a comment, of which each line ends with a line feed.
function paragraphs(text,    count, line, at, out, example, begun) {
    count = split(text, line, "\n")
    for (at = 1; at <= count; at++) {
        if (line[at] ~ /^    /) {
            if (!example) out = out (begun ? ".PP\n" : "") ".RS 4\n.nf\n"
            example = 1
            begun = 1
            out = out code(substr(line[at], 5)) "\n"
            continue
        }
        if (example) out = out ".fi\n.RE\n"
        if (line[at] == "") { if (!example && at < count) pause = begun }
        else {
            if (pause || example) out = out ".PP\n"
            pause = 0
            begun = 1
            out = out prose(line[at]) "\n"
        }
        example = 0
    }
    pause = 0
    return out (example ? ".fi\n.RE\n" : "")
}
# The entries of the enumeration: what stands behind a number in a comment is what it means.
function answers(text,    count, line, at, out) {
    count = split(text, line, "\n")
    for (at = 1; at <= count; at++) {
        if (line[at] !~ /[A-Z_]+ = [0-9]+/) continue
        sub(/^ */, "", line[at])
        means = line[at]
        if (!sub(/^.*\/\* */, "", means)) means = "done"
        sub(/ *\*\/.*$/, "", means)
        sub(/,? *(\/\*.*)?$/, "", line[at])
        out = out ".TP\n\\fB" line[at] "\\fR\n" prose(means) "\n"
    }
    return out
}
# Takes a piece of code with the comment before it.
function take(    call, at, line, count, tag) {
    if (piece == "") {
        if (said != "" && !begun[FILENAME]++) {
            if (file == 1) about = said
            else calls = calls ".SS " name "\n" paragraphs(said)
        }
    } else if (piece ~ /(^|\n)enum /) {
        returned = returned (returned == "" ? "" : ".PP\n") paragraphs(said) answers(piece)
    } else if (piece ~ /\);\n$/ && piece !~ /\{/) {
        count = split(piece, line, "\n")
        for (at = 1; at < count; at++) {
            call = call (call == "" ? "" : " ") line[at]
            gsub(/  +/, " ", call)
            if (call !~ /;$/) continue
            synopsis = synopsis code(call) "\n"
            tag = tag (tag == "" ? ".TP\n" : ".TQ\n") "\\fB" code(call) "\\fR\n"
            match(call, /cola_[a-z_]+\(/)
            names = names ", " substr(call, RSTART, RLENGTH - 1)
            call = ""
        }
        text = paragraphs(said)
        gsub(/\.PP\n/, ".IP\n", text)
        calls = calls tag text
    } else {
        types = types (said == "" ? ".PP\n" : ".PP\n" paragraphs(said)) ".PP\n.nf\n" code_of(piece) ".fi\n"
    }
    said = piece = ""
}
function code_of(text,    count, line, at, out) {
    count = split(text, line, "\n")
    for (at = 1; at < count; at++) out = out code(line[at]) "\n"
    return out
}

FNR == 1 {
    if (file) take()
    file++
    name = FILENAME
    sub(/^.*\//, "", name)
    includes = includes "#include <" name ">\n"
}
/SPDX-License-Identifier/ || /^#(if|endif|include)/ || /^extern / || /^}$/ || /^#define [A-Z_]*_H$/ { next }
!comment && /^\/\*/ {
    take()
    comment = 1
    sub(/^\/\* ?/, "")
    if (sub(/ *\*\/$/, "")) comment = 0
    said = $0 "\n"
    next
}
comment {
    if (sub(/ *\*\/$/, "")) comment = 0
    sub(/^ \* ?/, "")
    if (comment || $0 !~ /^ *$/) said = said $0 "\n"
    next
}
/^ *$/ { take(); next }
{ piece = piece $0 "\n" }

END {
    take()
    first = about
    sub(/\n.*/, "", first)
    sub(/, for C\.$/, "", first)
    print ".\\\" Made of the headers by docs/header.awk."
    printf ".TH COLA 3 \"\" \"cola %s\" \"Library Functions Manual\"\n", version
    print ".SH NAME"
    print "cola" names " \\- " tolower(substr(first, 1, 1)) substr(first, 2)
    print ".SH SYNOPSIS"
    print ".nf"
    printf "%s", includes
    print ""
    printf "%s", synopsis
    print ""
    print "cc main.c $(pkg\\-config \\-\\-cflags \\-\\-libs cola)"
    print ".fi"
    print ".SH DESCRIPTION"
    printf "%s", paragraphs(substr(about, index(about, "\n") + 2))
    print ".SH CALLS"
    printf "%s", calls
    print ".SH RETURN VALUE"
    printf "%s", returned
    print ".SH TYPES AND LIMITS"
    printf "%s", types
    print ".SH SEE ALSO"
    print "\\fBcola\\fR(1), \\fBpkg-config\\fR(1)"
}
