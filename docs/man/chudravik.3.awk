# The manual page of the library, from its header: what the header says is said once.
function plain(line) {
    gsub(/\\/, "\\e", line)
    gsub(/-/, "\\-", line)
    if (line ~ /^[.']/) line = "\\&" line
    return line
}

# The lines of a comment as text: an empty line parts paragraphs, and a dash or a number opens an item.
function text(comment,    line, lines, i, at) {
    lines = split(comment, line, "\n")
    for (i = 1; i <= lines; i++) {
        at = line[i]
        sub(/^\/\* ?/, "", at)
        sub(/^ \*\//, "", at)
        sub(/^ \* ?/, "", at)
        sub(/ *\*\/$/, "", at)
        if (at ~ /^ +- /) { sub(/^ +- /, "", at); print ".IP \\(bu 2" }
        else if (at ~ /^ *[0-9]+: /) { print ".TP 4"; print "\\fB" substr(at, 1, index(at, ":") - 1) "\\fR"; sub(/^ *[0-9]+: +/, "", at) }
        else if (at == "") { print ".PP"; continue }
        sub(/^ +/, "", at)
        print plain(at)
    }
}

function verbatim(lines) {
    print ".PP\n.nf"
    printf "%s", lines
    print ".fi"
}

{ whole[++count] = $0 }

END {
    # ---- the calls: a prototype, and the comment before it
    for (i = 1; i <= count; i++) {
        if (whole[i] ~ /^#define CHUDRAVIK_VERSION_STRING/) { version = whole[i]; gsub(/.* "|"$/, "", version) }
        if (whole[i] ~ /^\/\*/) { comment = ""; inside = 1 }
        if (inside) comment = comment (comment == "" ? "" : "\n") whole[i]
        if (whole[i] ~ /\*\/$/) inside = 0
        if (!inside && whole[i] ~ /^[a-z].*[ *]chudravik_[a-z_]+\(/) {
            name = whole[i]
            sub(/\(.*/, "", name)
            sub(/.*[ *]/, "", name)
            call[++calls] = name
            about[calls] = comment
            form[calls] = plain(whole[i]) "\n"
            while (whole[i] !~ /;$/) form[calls] = form[calls] plain(whole[++i]) "\n"
        }
    }
    print ".TH CHUDRAVIK 3 \"\" \"chudravik " version "\""
    print ".SH NAME"
    printf "chudravik"
    for (i = 1; i <= calls; i++) printf ", %s", call[i]
    print " \\- says which lamps of a logic circuit can never light"
    print ".SH SYNOPSIS\n.nf\n#include <chudravik.h>\n"
    for (i = 1; i <= calls; i++) printf "%s\n", form[i]
    print "cc program.c $(pkg\\-config \\-\\-cflags \\-\\-libs chudravik)\n.fi"

    # ---- the opening, the sections before the calls as they stand, and the calls
    print ".SH DESCRIPTION"
    comment = ""
    for (i = 1; i <= count; i++) {
        comment = comment (i == 1 ? "" : "\n") whole[i]
        if (whole[i] ~ /\*\/$/) break
    }
    text(comment)
    for (i++; i <= count; i++) {
        if (whole[i] ~ /^\/\* ---- .* ---- \*\/$/) {
            title = whole[i]
            gsub(/^\/\* ---- | ---- \*\/$/, "", title)
            if (title == "the calls") break
            if (title != "") print ".SH " toupper(title)
            comment = ""
            continue
        }
        if (title == "") continue
        if (whole[i] ~ /^\/\*/) {
            comment = ""
            for (;; i++) {
                comment = comment (comment == "" ? "" : "\n") whole[i]
                if (whole[i] ~ /\*\/$/) break
            }
            print ".PP"
            text(comment)
        } else if (whole[i] != "") {
            lines = ""
            for (; i <= count && whole[i] != ""; i++) lines = lines plain(whole[i]) "\n"
            verbatim(lines)
        }
    }
    print ".SH CALLS"
    for (i = 1; i <= calls; i++) {
        print ".SS " call[i]
        text(about[i])
        verbatim(form[i])
    }
    print ".SH STRUCTS"
    for (i = 1; i <= count; i++)
        if (whole[i] ~ /^typedef struct \{/) {
            lines = ""
            for (; whole[i] !~ /^\}/; i++) lines = lines plain(whole[i]) "\n"
            verbatim(lines plain(whole[i]) "\n")
        }
    print ".SH SEE ALSO\n.BR chudravik\\-report (1)"
}
