# Read after render.awk, by help/make: the completions for bash, zsh and fish, and the manual page of las-batch. What
# values an option is completed with stands in the file `values`: a line of options, then a value and its text a line.

BEGIN {
    count_values = paragraphs(folder "/values", value_list)
    read_pairs("causes")
    if (form == "bash") bash()
    if (form == "zsh") zsh()
    if (form == "fish") fish()
    if (form == "batch") batch_man()
}

function option_name(name, i,    list) { split(option[name, i], list, " "); return list[1] }

# whether an option takes a list of values
function takes_list(name, i) { return option[name, i] ~ / N\.\.\.$/ }

# what an option's text says in its first sentence, without the range of its values
function short_text(name, i,    text) {
    text = option_text[name, i]
    sub(/^Needed\. /, "", text)
    if (text ~ /^-?[0-9]/) sub(/^[^:]*: /, "", text)
    if (match(text, /[.:] /)) text = substr(text, 1, RSTART - 1)
    sub(/\.$/, "", text)
    return text
}

function cause_name(i,    list) { split(pair[i], list, " "); return list[2] }

# the paragraph of values of an option, 0 if it has none
function values_of(wanted,    k) {
    for (k = 1; k <= count_values; k++) if (index(" " first_line(value_list[k]) " ", " " wanted " ")) return k
    return 0
}

# the values of a paragraph, each followed by `middle` and its text if that is given, between `start` and `end`
function values(k, start, middle, end,    lines, n, i, text, value, out) {
    n = split(other_lines(value_list[k]), lines, "\n")
    for (i = 1; i <= n; i++) {
        value = text = lines[i]
        sub(/ .*/, "", value)
        sub(/^[^ ]* /, "", text)
        out = out (out == "" ? "" : " ") start value (middle == "" ? "" : middle text) end
    }
    return out
}

function list_of_words(text) { return fill(text, "", "                ") }

function made_by(shell) {
    print "# " shell " completion of las. Made by help/make from the texts of help/; change those."
}

function bash(    i, j, name, text) {
    made_by("bash")
    print "_las() {"
    print "    local word=${COMP_WORDS[COMP_CWORD]} before=${COMP_WORDS[COMP_CWORD-1]} words='' option='' first=1 at"
    print "    COMPREPLY=()"
    print "    if [ \"${COMP_WORDS[1]}\" = --safe ] && [ \"$COMP_CWORD\" -gt 1 ]; then first=2; fi"
    print "    for ((at = COMP_CWORD - 1; at > first; at--)); do"
    print "        case ${COMP_WORDS[at]} in -[a-z]*) option=${COMP_WORDS[at]} && break ;; esac"
    print "    done"
    print "    if [ \"$COMP_CWORD\" -eq \"$first\" ]; then"
    printf "        words='"
    for (i = 1; i <= count; i++) printf "%s%s", (i > 1 ? " " : ""), commands[i]
    print "'"
    print "        [ $first -eq 2 ] || words=\"$words help --safe --help --version\""
    print "    else"
    print "        case ${COMP_WORDS[first]} in"
    for (i = 1; i <= count; i++) {
        name = commands[i]
        text = ""
        for (j = 1; j <= number[name]; j++) text = text option_name(name, j) " "
        print "        " name ")\n            words='" list_of_words(text "--help") "'\n            ;;"
    }
    text = ""
    for (i = 1; i <= count; i++) text = text commands[i] " "
    for (i = 1; i <= pairs; i++) text = text cause_name(i) " "
    print "        help)\n            words='" list_of_words(text "las-batch") "'\n            ;;"
    print "        esac"
    print "        case $before in"
    print "        -i | -o | -z) words= ;;"
    bash_values()
    print "        esac"
    print "    fi"
    print "    if [ -n \"$words\" ]; then"
    print "        mapfile -t COMPREPLY < <(compgen -W \"$words\" -- \"$word\")"
    print "    fi"
    print "}"
    print "complete -o default -F _las las"
}

# After an option its values alone, after a value of a list more of them and the options.
function bash_values(    k, names) {
    for (k = 1; k <= count_values; k++) {
        names = first_line(value_list[k])
        gsub(/ /, " | ", names)
        print "        " names ") words='" values(k, "", "", "") "' ;;"
    }
    print "        *)"
    print "            case $option in"
    for (k = 1; k <= count_values; k++) {
        names = list_names(first_line(value_list[k]), " | ")
        if (names != "") print "            " names ") words=\"$words " values(k, "", "", "") "\" ;;"
    }
    print "            esac"
    print "            ;;"
}

# those of some options that take a list
function list_names(names, between,    list, n, i, j, out) {
    n = split(names, list, " ")
    for (i = 1; i <= n; i++)
        for (j = 1; j <= number["las2las"]; j++)
            if (option_name("las2las", j) == list[i] && takes_list("las2las", j))
                out = out (out == "" ? "" : between) list[i]
    return out
}

# a text between single quotes of a shell, after a name and a colon if that is given
function quoted(name, text) {
    gsub(/'/, "'\\''", text)
    gsub(/:/, "\\:", text)
    return "'" name ":" text "'"
}

function zsh(    i, j, name) {
    print "#compdef las"
    made_by("zsh")
    print "local first=2 option= at"
    print "local -a words_of_las"
    print "[[ $words[2] == --safe && CURRENT -gt 2 ]] && first=3"
    print "for ((at = CURRENT - 1; at > first; at--)); do"
    print "    [[ $words[at] == -[a-z]* ]] && option=$words[at] && break"
    print "done"
    print "if (( CURRENT == first )); then"
    print "    words_of_las=("
    for (i = 1; i <= count; i++) print "        " quoted(commands[i], summary[commands[i]])
    print "        " quoted("help", "tells of a command or a cause")
    print "    )"
    print "    (( first == 2 )) && words_of_las+=(" \
        quoted("--safe", "gives outputs their names when they are whole") ")"
    print "    _describe command words_of_las && return"
    print "fi"
    print "case $words[CURRENT-1] in"
    print "-i | -o | -z) _files && return ;;"
    zsh_values()
    print "esac"
    print "case $words[first] in"
    for (i = 1; i <= count; i++) {
        name = commands[i]
        print name ")\n    words_of_las=("
        for (j = 1; j <= number[name]; j++) print "        " quoted(option_name(name, j), short_text(name, j))
        print "    )\n    ;;"
    }
    print "help)\n    words_of_las=("
    for (i = 1; i <= count; i++) print "        " quoted(commands[i], summary[commands[i]])
    print "        " quoted("las-batch", "runs a command over many files")
    for (i = 1; i <= pairs; i++) print "        " quoted(cause_name(i), "cause " pair[i])
    print "    )\n    ;;"
    print "esac"
    print "_describe -o option words_of_las"
}

function zsh_values(    k, names) {
    for (k = 1; k <= count_values; k++) {
        names = first_line(value_list[k])
        gsub(/ /, " | ", names)
        print names ") words_of_las=(" values(k, "'", ":", "'") ") && _describe value words_of_las && return ;;"
    }
    print "[0-9]*)"
    print "    case $option in"
    for (k = 1; k <= count_values; k++) {
        names = list_names(first_line(value_list[k]), " | ")
        if (names != "")
            print "    " names ") words_of_las=(" values(k, "'", ":", "'") ") && _describe value words_of_las ;;"
    }
    print "    esac"
    print "    ;;"
}

# a text between double quotes of fish
function fish_text(text) {
    gsub(/["$\\]/, "\\\\&", text)
    return "\"" text "\""
}

function fish(    i, j, name, line, k) {
    made_by("fish")
    print "complete -c las -f"
    for (i = 1; i <= count; i++)
        print "complete -c las -n __fish_use_subcommand -a " commands[i] " -d " fish_text(summary[commands[i]])
    print "complete -c las -n __fish_use_subcommand -a help -d \"tells of a command or a cause\""
    print "complete -c las -n __fish_use_subcommand -l safe -d \"gives outputs their names when they are whole\""
    print "complete -c las -n __fish_use_subcommand -l version -d \"tells the version\""
    for (i = 1; i <= count; i++) {
        name = commands[i]
        for (j = 1; j <= number[name]; j++) {
            line = "complete -c las -n \"__fish_seen_subcommand_from " name "\" -o " substr(option_name(name, j), 2)
            k = values_of(option_name(name, j))
            if (option_name(name, j) ~ /^-[ioz]$/) line = line " -r -F"
            else if (k) line = line " -x -a '" values(k, "", "\\t\"", "\"") "'"
            else if (option[name, j] ~ / /) line = line " -x"
            print line " -d " fish_text(short_text(name, j))
        }
    }
    for (i = 1; i <= count; i++)
        fish_topic(commands[i], summary[commands[i]])
    fish_topic("las-batch", "runs a command over many files")
    for (i = 1; i <= pairs; i++) fish_topic(cause_name(i), "cause " pair[i])
}

function fish_topic(name, text) {
    print "complete -c las -n \"__fish_seen_subcommand_from help\" -a " name " -d " fish_text(text)
}

# The manual page of las-batch, from what las-batch prints: the synopsis, then a paragraph or two, then options and
# words with their texts, and the statuses.
function batch_man(    line, lines_of_batch, n, i) {
    while ((getline line < (folder "/batch")) > 0) lines_of_batch[++n] = line
    if (n == 0) exit 1
    print ".\\\" Made by help/make from help/batch; change that."
    print ".\\\" SPDX-License-Identifier: Apache-2.0 OR MIT"
    print ".TH LAS\\-BATCH 1 \"\" \"las " version "\" \"User Commands\""
    print ".SH NAME\nlas\\-batch \\- runs a command of las over many files"
    print ".SH SYNOPSIS"
    for (i = 1; i <= n; i++) batch_line(lines_of_batch[i])
    if (told_of != "") print roff(told_of)
    print ".SH SEE ALSO\n.BR las (1)"
}

# A line of the text: of the synopsis, of a paragraph, or an option with the begin of its text.
function batch_line(line,    head, text) {
    if (line ~ /^Usage: / || (line ~ /^ +las-batch /)) {
        sub(/^Usage: /, "", line)
        sub(/^ +/, "", line)
        gsub(/  +/, " ", line)
        print (synopsis_begun++ ? ".br\n" : "") "\\fB" roff(line) "\\fR"
        return
    }
    if (line ~ /^Status: /) {
        finish_told()
        print ".SH EXIT STATUS"
        sub(/^Status: /, "", line)
        told_of = toupper(substr(line, 1, 1)) substr(line, 2)
    } else if (line ~ /^  [^ ]/) {
        finish_told()
        match(line, /^  [^ ]+( [A-Z-][A-Za-z-]*)? +/)
        head = substr(line, 3, RLENGTH - 2)
        sub(/ +$/, "", head)
        text = substr(line, RLENGTH + 1)
        if (!options_begun++) print ".SH OPTIONS"
        print ".TP\n\\fB" roff(head) "\\fR"
        told_of = text
    } else if (line == "") {
        finish_told()
    } else {
        if (!options_begun && !described++) print ".SH DESCRIPTION"
        sub(/^ +/, "", line)
        told_of = told_of (told_of == "" ? "" : " ") line
    }
}

function finish_told() {
    if (told_of != "") print roff(told_of)
    told_of = ""
}
