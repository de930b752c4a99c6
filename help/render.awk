# Makes what a reader sees of the texts of this folder. Variables of the environment say what:
#   folder   this folder
#   form     page (of the command or cause `topic`, or of `las`), usage (of the command `topic`), option (the lines on
#            the option `words` of that command), missing (what that command needs beside `words`), near (its options that
#            are spelt much like `words`) or man; complete.awk makes more
#   version  for the man page
# A text file is a list of paragraphs with blank lines between them. Ends with status 1 if there is no such topic.

BEGIN {
    folder = ENVIRON["folder"]; form = ENVIRON["form"]; topic = ENVIRON["topic"]; version = ENVIRON["version"]
    count = split("laszip las2las lasinfo lassplit lasmerge make", commands, " ")
    for (at = 1; at <= count; at++) read_command(commands[at])
    read_command("las")
    read_options()
    read_pairs("statuses")
    if (form == "page" && (topic in summary)) page(topic)
    else if (form == "page") cause_page(topic)
    else if (form == "usage" && (topic in summary)) print indented(synopsis[topic])
    else if (form == "missing") missing(topic, " " ENVIRON["words"] " ")
    else if (form == "option") option_lines(topic, ENVIRON["words"])
    else if (form == "near") near(topic, ENVIRON["words"])
    else if (form == "man") man()
    else if (form !~ /^(bash|zsh|fish|batch)$/) exit 1
}

# the paragraphs of a file, from 1 on; returns how many there are
function paragraphs(file, into,    n, keep) {
    keep = RS; RS = ""; n = 0
    while ((getline into[n + 1] < file) > 0) n++
    close(file)
    RS = keep
    return n
}

function joined(text) { gsub(/\n/, " ", text); return text }

function first_line(text) { sub(/\n.*/, "", text); return text }

function other_lines(text) { return sub(/^[^\n]*\n/, "", text) ? text : "" }

function read_command(name,    found, n, i, file) {
    file = name == "las" ? folder "/las" : folder "/commands/" name
    n = paragraphs(file, found)
    summary[name] = found[1]; synopsis[name] = found[2]; told[name] = joined(found[3])
    examples[name] = n - 3
    for (i = 4; i <= n; i++) {
        example[name, i - 3] = first_line(found[i])
        example_text[name, i - 3] = joined(other_lines(found[i]))
    }
}

function read_options(    found, rest, list, n, i, j, at) {
    n = paragraphs(folder "/options", found)
    for (i = 1; i <= n; i++) {
        rest = other_lines(found[i])
        at = split(first_line(rest), list, /[ ,]+/)
        for (j = 3; j <= at; j++) if (list[j] != "repeated") {
            number[list[j]]++
            option[list[j], number[list[j]]] = first_line(found[i])
            kind[list[j], number[list[j]]] = list[1]
            option_text[list[j], number[list[j]]] = (list[1] == "needed" ? "Needed. " : "") joined(other_lines(rest))
        }
    }
}

# statuses, causes or the environment: a first line, then a text
function read_pairs(file,    found, i) {
    pairs = paragraphs(folder "/" file, found)
    for (i = 1; i <= pairs; i++) { pair[i] = first_line(found[i]); pair_text[i] = other_lines(found[i]) }
}

# a text filled to 79 columns, its lines after `margin`; the first line after `start`
function fill(text, start, margin,    words, n, i, line, out) {
    n = split(text, words, " ")
    line = start; out = ""
    for (i = 1; i <= n; i++) {
        if (length(line) + length(words[i]) > 79) { sub(/ +$/, "", line); out = out line "\n"; line = margin }
        line = line words[i] " "
    }
    sub(/ +$/, "", line)
    return out line
}

function entry(head, text, width,    start) {
    start = sprintf("  %-" width "s", head)
    if (length(head) > width - 2) { print "  " head; start = sprintf("  %-" width "s", "") }
    print fill(text, start, sprintf("  %-" width "s", ""))
}

function page(name,    i) {
    print (name == "las" ? "las" : "las " name) ": " summary[name] "\n"
    print indented(synopsis[name]) "\n"
    print fill(told[name], "", "") "\n"
    if (name == "las") {
        print "Commands:"
        for (i = 1; i <= count; i++) entry(commands[i], summary[commands[i]], 10)
        print ""
    } else {
        print "Options:"
        for (i = 1; i <= number[name]; i++) entry(option[name, i], option_text[name, i], 24)
        print ""
    }
    print "Examples:"
    for (i = 1; i <= examples[name]; i++) print "  " example[name, i] "\n" fill(example_text[name, i], "      ", "      ")
    print "\nExit status, with the line on standard error:"
    for (i = 1; i <= pairs; i++) entry(pair[i], joined(pair_text[i]), 3)
}

# the synopsis, filled to 79 columns with what is in brackets kept together
function indented(text,    lines, n, i, out) {
    n = split(text, lines, "\n")
    for (i = 1; i <= n; i++) out = out (i > 1 ? "\n" : "") whole(lines[i])
    return out
}

function whole(line,    words, n, i, depth, letter, group, out) {
    for (i = 1; i <= length(line); i++) {
        letter = substr(line, i, 1)
        if (letter ~ /[\[(]/) depth++
        if (letter ~ /[\])]/) depth--
        group = group (letter == " " && depth > 0 ? "\001" : letter)
    }
    out = fill(group, "  ", "      ")
    gsub(/\001/, " ", out)
    return out
}

function cause_page(wanted,    i, list) {
    read_pairs("causes")
    for (i = 1; i <= pairs; i++) {
        split(pair[i], list, " ")
        if (wanted != list[1] && tolower(wanted) != tolower(list[2])) continue
        print "las: cause " pair[i] "\n"
        print fill(joined(pair_text[i]), "", "")
        exit 0
    }
    exit 1
}

function option_lines(name, wanted,    i, list) {
    for (i = 1; i <= number[name]; i++) {
        split(option[name, i], list, " ")
        if (list[1] == wanted) { entry(option[name, i], option_text[name, i], 24); exit 0 }
    }
    exit 1
}

# the options of a command that differ from a word by two letters at most
function near(name, word,    i, list, found) {
    for (i = 1; i <= number[name]; i++) {
        split(option[name, i], list, " ")
        if (distance(list[1], word) <= 2) found = found (found == "" ? "" : " ") list[1]
    }
    if (found == "") exit 1
    print found
}

# how many letters have to be put in, taken out or changed to make one word the other
function distance(a, b,    i, j, row, above, left, best) {
    for (j = 0; j <= length(b); j++) row[j] = j
    for (i = 1; i <= length(a); i++) {
        left = i
        for (j = 1; j <= length(b); j++) {
            above = row[j - 1] + (substr(a, i, 1) != substr(b, j, 1))
            best = row[j] + 1
            if (left + 1 < best) best = left + 1
            if (above < best) best = above
            row[j - 1] = left
            left = best
        }
        row[length(b)] = left
    }
    return row[length(b)]
}

# the needed options of a command that are not among the words that were given
function missing(name, given,    i, list, found, ways, has_way) {
    for (i = 1; i <= number[name]; i++) {
        split(option[name, i], list, " ")
        if (kind[name, i] == "needed" && !index(given, " " list[1] " ")) found = found ", " list[1]
        if (kind[name, i] == "one") { ways = ways " or " list[1]; if (index(given, " " list[1] " ")) has_way = 1 }
    }
    if (ways != "" && !has_way) found = found ", " substr(ways, 5)
    print substr(found, 3)
}

function roff(text) {
    gsub(/\\/, "\\e", text); gsub(/-/, "\\-", text)
    gsub(/`[^`]*`/, "\\fB&\\fR", text); gsub(/`/, "", text)
    sub(/^[.']/, "\\\\\\&&", text)
    return text
}

function man(    i, name, j) {
    print ".\\\" Made by help/make from the texts of help/; change those."
    print ".TH LAS 1 \"\" \"las " version "\" \"User Commands\""
    print ".SH NAME\nlas \\- " roff(summary["las"])
    print ".SH SYNOPSIS"
    synopsis_lines("las")
    print ".SH DESCRIPTION\n" roff(told["las"])
    print ".SH COMMANDS"
    for (i = 1; i <= count; i++) {
        name = commands[i]
        print ".SS \"las " name "\""
        print roff(toupper(substr(summary[name], 1, 1)) substr(summary[name], 2)) "."
        print ".PP"
        synopsis_lines(name)
        print ".PP\n" roff(told[name])
        for (j = 1; j <= number[name]; j++) print ".TP\n\\fB" roff(option[name, j]) "\\fR\n" roff(option_text[name, j])
    }
    print ".SH EXAMPLES"
    for (i = 1; i <= count; i++) for (j = 1; j <= examples[commands[i]]; j++) man_example(commands[i], j)
    print ".SH EXIT STATUS\nStatuses 1 to 6 put one line on standard error."
    for (i = 1; i <= pairs; i++) print ".TP\n\\fB" pair[i] "\\fR\n" roff(joined(pair_text[i]))
    read_pairs("environment")
    print ".SH ENVIRONMENT"
    for (i = 1; i <= pairs; i++) print ".TP\n\\fB" pair[i] "\\fR\n" roff(joined(pair_text[i]))
    man_causes()
}

function synopsis_lines(name,    lines, n, i) {
    n = split(synopsis[name], lines, "\n")
    for (i = 1; i <= n; i++) print (i > 1 ? ".br\n" : "") "\\fB" roff(lines[i]) "\\fR"
}

function man_example(name, j,    text) {
    text = example_text[name, j]
    print ".TP\n\\fB" roff(example[name, j]) "\\fR\n" roff(toupper(substr(text, 1, 1)) substr(text, 2)) "."
}

function man_causes(    i) {
    read_pairs("causes")
    print ".SH CAUSES\nWith status 5 the input is refused for one of these causes."
    for (i = 1; i <= pairs; i++) print ".TP\n\\fB" pair[i] "\\fR\n" roff(joined(pair_text[i]))
    print ".SH LICENCE\nApache-2.0 OR MIT, at your option. LAZ has no checksum: damage that still spells point records is not"
    print "seen by any reader, so keep a manifest of digests beside an archive."
    print ".SH SEE ALSO\n.BR las\\-batch (1)"
}
