# The manual page galhoveia(3), made of what galhoveia.h says: awk -f manual.awk galhoveia.h
#
# The header's first comment is the description. A comment in front of something tells of it, and what has no comment of
# its own goes with the one before. Declarations stand as they are; a constant's own comment stands below its name.

function plain(text) {
    gsub(/\\/, "\\e", text)
    gsub(/-/, "\\-", text)
    return text ~ /^[.']/ ? "\\&" text : text
}

# Lines that are indented further than a comment's own text stand as they are; the others are filled.
function tell(comment,    lines, count, at, kept, keep, line) {
    count = split(comment, lines, "\n")
    kept = 0
    for (at = 1; at <= count; at++) {
        line = lines[at]
        if (line == "") {
            if (kept) print ".fi"
            kept = 0
            print ".PP"
            continue
        }
        keep = line ~ /^ /
        if (keep != kept) print keep ? ".nf" : ".fi"
        kept = keep
        print plain(line)
    }
    if (kept) print ".fi"
}

# The text of a comment, its marks and the blanks that stand before all its lines taken away.
function text_of(comment) {
    sub(/^ *\/\* ?/, "", comment)
    sub(/ *\*\/ *$/, "", comment)
    gsub(/\n   /, "\n", comment)
    return comment
}

# The constants of an enum or a define, each with what is said of it.
function constant(line,    name, said) {
    name = line
    said = ""
    if (match(line, /\/\*/)) {
        name = substr(line, 1, RSTART - 1)
        said = substr(line, RSTART)
        gsub(/^\/\* */, "", said)
        gsub(/ *\*\/ *$/, "", said)
        gsub(/ *\n */, " ", said)
    }
    sub(/^ *(#define +)?/, "", name)
    gsub(/[ ,]+$/, "", name)
    if (name !~ /=/) sub(/ +/, " = ", name)
    if (said == "") print ".PD 0\n.TP\n.B " plain(name) "\n.PD"
    else print ".TP\n.B " plain(name) "\n" plain(said)
}

function end_comment(    text) {
    text = text_of(comment)
    comment = ""
    if (!described) {
        described = 1
        title = text
        sub(/\n.*/, "", title)
        sub(/^[^:]*: /, "", title)
        sub(/\.$/, "", title)
        sub(/^[^\n]*\n\n?/, "", text)
        description = text
        return
    }
    waiting = text
}

# A section without a call: what is said, and the constants it is said of.
function add_section(said, code) {
    sections[++section_count] = said
    constants[section_count] = code
}

# A whole declaration, enum or define, with the comment in front of it.
function end_code(    name) {
    if (code ~ /^uint32_t galhoveia_/) {
        name = code
        sub(/\(.*/, "", name)
        sub(/^uint32_t /, "", name)
        calls[++call_count] = name
        prototype[name] = code
        told[name] = waiting
    } else {
        add_section(waiting, code)
    }
    waiting = ""
    code = ""
}

BEGIN { described = 0 }
/^#(ifndef|ifdef|endif|include)/ || /^extern "C"/ || /^}$/ { next }
/^#define GALHOVEIA_H$/ { next }
/^#define GALHOVEIA_VERSION/ { version = $3; gsub(/"/, "", version); next }
comment != "" { comment = comment "\n" $0; if (/\*\/ *$/) end_comment(); next }
code == "" && /^\/\*/ {
    if (waiting != "") add_section(waiting, "")
    waiting = ""
    comment = $0
    if (/\*\/ *$/) end_comment()
    next
}
code == "" && /^#define/ { code = $0; end_code(); next }
code == "" && /^enum \{.*\};/ {
    code = $0
    gsub(/^enum \{ *| *\};.*/, "", code)
    gsub(/, */, "\n", code)
    end_code()
    next
}
code == "" && /^(enum|uint32_t)/ { code = $0; if (/;/) end_code(); next }
code != "" { code = code "\n" $0; if (/;$/) end_code() }

# The constants of a section: a comment may go on for several lines.
function print_constants(text,    lines, count, at, line) {
    count = split(text, lines, "\n")
    line = ""
    for (at = 1; at <= count; at++) {
        if (lines[at] ~ /^(enum \{|\};)/) continue
        line = line == "" ? lines[at] : line "\n" lines[at]
        if (line !~ /\/\*/ || line ~ /\*\/ *$/) { constant(line); line = "" }
    }
}

END {
    if (waiting != "") add_section(waiting, "")
    print ".\\\" Made of galhoveia.h by manual.awk."
    print ".TH GALHOVEIA 3 \"\" \"galhoveia " version "\" \"Galhoveia\""
    print ".SH NAME\ngalhoveia \\- " plain(title)
    print ".SH SYNOPSIS\n.nf\n\\fB#include <galhoveia.h>\\fP\n"
    for (at = 1; at <= call_count; at++) print "\\fB" plain(prototype[calls[at]]) "\\fP\n"
    print ".fi\nCompile and link with $(pkg\\-config \\-\\-cflags \\-\\-libs galhoveia)."
    print ".SH DESCRIPTION"
    tell(description)
    print ".SH CONSTANTS AND WHAT THEY MEAN"
    for (at = 1; at <= section_count; at++) {
        if (sections[at] != "") { print ".PP"; tell(sections[at]) }
        print_constants(constants[at])
    }
    print ".SH CALLS"
    for (at = 1; at <= call_count; at++) {
        print ".SS " calls[at]
        tell(told[calls[at]])
    }
    print ".SH SEE ALSO\n.BR desk (1)"
}
