# Read by the launcher `las` if standard error is a terminal, if LAS_HINTS or LAS_SAFE is set, or if the program lies in
# a folder `once` that is removed after the run: runs the program as a child. On the terminal, or wherever standard error
# goes if LAS_HINTS is set, it tells what can be known of a run that has not ended with status 0. Signals go on to the
# program, and the launcher ends as the program did.

hint() { printf '%s\n' "$1" >&2; }

# Text for the terminal: control characters, which could change it, become question marks.
plain() { printf '%s' "$1" | LC_ALL=C tr '\000-\037\177' '?'; }

render() { folder=$help form=$1 topic=$2 words=${3-} LC_ALL=C awk -f "$help/render.awk" </dev/null; }

is_command() {
    case $1 in laszip | las2las | lasinfo | lassplit | lasmerge | make) return 0 ;; esac
    return 1
}

# The command line with word $1, counted from 0 at the command, between marks.
marked_line() {
    wrong=$1
    shift
    line='  las' at=0
    for word in "$@"; do
        word=$(plain "$word")
        case $word in '' | *[!A-Za-z0-9_./:=,+@%-]*) word="'$word'" ;; esac
        [ $at -eq "$wrong" ] && word=">>>$word<<<"
        line="$line $word" at=$((at + 1))
    done
    [ $at -gt "$wrong" ] || line="$line >>>here<<<"
    hint "$line"
}

# After status 2: the wrong word, the option that it is a value of, and the synopsis.
after_usage() {
    wrong=$1
    shift
    case $wrong in '' | *[!0-9]*) return ;; esac
    marked_line "$wrong" "$@"
    if ! is_command "${1-}"; then
        hint "A command is one of laszip, las2las, lasinfo, lassplit, lasmerge and make; \`las help\` tells of them."
        return
    fi
    find_last "$@"
    told=
    [ -z "$last" ] || told=$(render option "$1" "$last")
    eval "word=\${$((wrong + 1))-}"
    if [ "$wrong" -ge $# ]; then
        missing=$(render missing "$1" "$*")
        if [ -n "$missing" ]; then hint "What is needed and not given: $missing"; else hint "A value is missing."; fi
    elif render option "$1" "$word" >/dev/null; then
        told=$(render option "$1" "$word")
        after_known_option "$@"
    else
        case $word in
        -[a-z]*) told= && after_unknown_option "$1" "$word" ;;
        --[a-z]*) told= && after_unknown_option "$1" "${word#-}" ;;
        *) after_wrong_value "$@" ;;
        esac
    fi
    [ -z "$told" ] || hint "$told"
    note_names "$@"
    render usage "$1" >&2
    hint "\`las help $1\` tells more."
}

# Sets `last` to the option before the wrong word, and `values` to how many words are between the two, and one.
find_last() {
    at=0 last='' values=0 option=''
    for word in "$@"; do
        [ $at -le "$wrong" ] || break
        values=$((values + 1))
        if [ $at -gt 0 ] && [ $at -lt "$wrong" ]; then
            case $option in
            -i | -o | -z) option= ;;
            *) case $word in -[a-z]*) last=$word option=$word values=0 ;; esac ;;
            esac
        fi
        at=$((at + 1))
    done
}

# An option of the command is wrong where it stands.
after_known_option() {
    at=0 earlier='' thins=''
    for given in "$@"; do
        if [ $at -lt "$wrong" ] && [ "$given" = "$word" ]; then earlier=1; fi
        if [ "$given" = -thin_raw ]; then thins=1; fi
        at=$((at + 1))
    done
    case $word:$earlier:$thins in
    -keep_class:1:* | -drop_class:1:* | -keep_return:1:* | -drop_return:1:*)
        hint "This option is given before. All numbers stand after one, with blanks between them: $word 1 2"
        ;;
    *:1:*) hint "This option is given before." ;;
    -lowest::'' | -highest::'') hint "This option goes with -thin_raw N, which is not given." ;;
    *) hint "This option does not go beside one that is given before it." ;;
    esac
}

# The word $2 is no option of the command $1 with one dash.
after_unknown_option() {
    if [ "$word" != "$2" ] && render option "$1" "$2" >/dev/null; then
        hint "Options have one dash: $2"
        told=$(render option "$1" "$2")
        return
    fi
    hint "This is no option of $1."
    near=$(render near "$1" "$2") && hint "Perhaps this is meant: $near"
}

# The wrong word does not begin as an option does. It is a value of the option before it, or one word too many.
after_wrong_value() {
    case $told in
    *' -'*' N... '*) takes=1000 ;;
    *) takes=$(printf '%s\n' "$told" | awk 'NR == 1 { n = 0; for (i = 2; $i ~ /^[A-Z]+$/; i++) n++; print n }') ;;
    esac
    if [ "$takes" = 1000 ]; then
        case $word in
        *[!0-9,]* | ,* | *, | *,,*) ;;
        *,*) hint "Numbers have blanks between them: $last $(printf '%s' "$word" | tr , ' ')" ;;
        esac
    fi
    [ "${takes:-0}" -ge "$values" ] && return
    told=
    names=0 at=0
    for given in "$@"; do
        [ $at -lt "$wrong" ] || case $given in -*) ;; *) names=$((names + 1)) ;; esac
        at=$((at + 1))
    done
    if [ "$1" = lasmerge ]; then
        hint "Before each input stands -i: -i $(plain "$word")"
    elif [ $names -gt 1 ] && [ "$1" != make ] && [ "$1" != lassplit ]; then
        hint "A run has one input, after -i. For many files: las-batch $1 -odir FOLDER NAME..."
    elif [ -e "$word" ]; then
        hint "This word belongs to no option. A name stands after its option, as -i $(plain "$word")"
    else
        hint "This word belongs to no option."
    fi
}

# What is known of a name that could not be read or written.
tell_name() {
    name=$1 shown=$(plain "$1")
    case $name in /*) ;; *) name=./$name ;; esac
    if [ -L "$name" ] && [ ! -e "$name" ]; then
        hint "'$shown' is a symbolic link to nothing."
    elif [ ! -e "$name" ]; then
        folder=${name%/*}
        folder=${folder:-/}
        if [ -d "$folder" ] && [ ! -x "$folder" ]; then
            hint "There is no permission to look into '$(plain "$folder")'."
        elif [ -d "$folder" ]; then
            [ "$2" = read ] && hint "There is no file '$shown'."
            [ "$2" = read ] || tell_folder "$folder"
        elif [ -e "$folder" ]; then
            hint "'$(plain "$folder")' is no folder."
        else
            hint "There is no folder '$(plain "$folder")', or there is no permission to look for it."
        fi
    elif [ -d "$name" ]; then
        hint "'$shown' is a folder."
    elif [ "$2" = read ]; then
        [ -r "$name" ] || hint "There is no permission to read '$shown'."
        [ -f "$name" ] || hint "'$shown' is no regular file."
    elif [ ! -f "$name" ]; then
        hint "'$shown' is no regular file."
    else
        [ -w "$name" ] || hint "There is no permission to write '$shown'."
        tell_folder "${name%/*}" exists
    fi
}

# What is known of a folder that an output stands in.
tell_folder() {
    [ "${2-}" = exists ] || [ -w "$1" ] || hint "There is no permission to write into the folder '$(plain "$1")'."
    left=$(df -Pk -- "$1" 2>/dev/null | awk 'NR == 2 { print $4 }')
    case $left in
    '' | *[!0-9]*) ;;
    *) [ "$left" -ge 1024 ] || hint "The disk of '$(plain "$1")' is full: $left KB are left." ;;
    esac
}

# After status 4: what is known of each output that the words name.
after_write_fault() {
    limit=$(ulimit -f)
    [ "$limit" = unlimited ] || hint "A file may have at most $limit blocks of 512 bytes here (ulimit -f)."
    option=
    for word in "$@"; do
        case $option in
        -o | -z)
            tell_name "$word" write
            for input in "$@"; do
                [ "$option$input" != "$option$word" ] && [ -f "$input" ] && [ "$word" -ef "$input" ] &&
                    hint "'$(plain "$word")' is the file '$(plain "$input")' under another name."
            done
            ;;
        esac
        case $option in -i | -o | -z) option= ;; *) option=$word ;; esac
    done
    case ${1-} in lasinfo | make) [ -t 1 ] || hint "Standard output may be closed, or its disk full." ;; esac
    tell_parts "$@"
}

# After status 6: what it means that this input differs, or that there are too many records.
after_unequal() {
    case $1 in
    *': format') hint "The point data format is another one than that of the first input." ;;
    *': length') hint "The record length is another one than that of the first input: there are other extra bytes." ;;
    *': scales') hint "The scale factors are others than those of the first input." ;;
    *': offsets') hint "The offsets of x, y and z are others than those of the first input." ;;
    *': box') hint "The header's box, the least and greatest x, y and z, is another than that of the first input." ;;
    'too many points') hint "All inputs together have 4294967296 points or more, and a file has fewer." ;;
    'too many chunks') hint "All inputs together have more than 16777216 chunks. Merge without -copy_chunks." ;;
    *) return ;;
    esac
    case $1 in
    unequal*)
        hint "lasmerge joins files of one header, as the parts that lassplit makes of a file, and changes no record."
        hint "Bring the inputs to one header with another tool first."
        ;;
    esac
}

after_refusal() {
    words=${1##*: }
    words=${words#* }
    if page=$(render page "${words%% *}"); then hint "${page#*"
"}"; fi
}

# The terminal's hint for the status, with the line that the program has put.
tell() {
    line=$1
    shift
    case $status in
    0) note_names "$@" && note_contents "$@" ;;
    1) tell_parts "$@" ;;
    2) after_usage "${line#usage: word }" "$@" ;;
    3) tell_name "${line#read fault: }" read && tell_parts "$@" ;;
    4) after_write_fault "$@" ;;
    5) after_refusal "$line" && tell_parts "$@" ;;
    6) after_unequal "$line" ;;
    *) [ "$status" -le 128 ] || tell_parts "$@" ;;
    esac
}

# Waits until the program has ended, and sets `status`. A signal that is caught meanwhile went on to it.
wait_for() {
    status=1
    while :; do
        caught=
        # (the shell would tell of a signal, as `Terminated`)
        { wait "$child"; } 2>/dev/null
        got=$?
        [ $got -eq 127 ] || status=$got
        [ -n "$caught" ] || break
    done
}

# Ends the launcher as the program has ended.
end_as() {
    [ -z "$once" ] || rm -rf -- "$once"
    [ -z "$own" ] || rm -rf -- "$own"
    for name in HUP:129 INT:130 QUIT:131 TERM:143; do
        [ "$1" -eq "${name#*:}" ] || continue
        trap - "${name%:*}"
        # shellcheck disable=SC3045
        ulimit -c 0
        kill -s "${name%:*}" $$
    done
    exit "$1"
}

# A child in the background ignores INT and QUIT unless something sets them back. Sets `reset` to those that the launcher
# was not started with ignored.
find_reset() {
    ignored=0
    while read -r name value; do
        case $name in SigIgn:) ignored=0x${value#"${value%?}"} ;; esac
    done 2>/dev/null <"/proc/$$/status"
    reset=
    [ $((ignored & 2)) -ne 0 ] || reset=INT
    [ $((ignored & 4)) -ne 0 ] || reset=${reset:+$reset,}QUIT
}

# Starts the program in the background. The shell would take standard input from it, so that comes from the descriptor
# that is free. (env takes a program whose path has an equals sign for a variable, hence sh.)
start() {
    set -- sh -c 'exec "$0" "$@"' "$program" "$@"
    [ -z "$reset" ] || set -- env --default-signal="$reset" "$@"
    from='<&-'
    for spare in 9 8 7 6 5 4 3; do
        [ ! -e "/proc/$$/fd/$spare" ] || continue
        if [ -e "/proc/$$/fd/0" ]; then
            eval "exec $spare<&0"
            from="<&$spare $spare<&-"
        fi
        break
    done
    if [ -n "$hints" ]; then from="$from 2>>\"\$said\""; fi
    # (exec keeps no copy of what it redirects)
    eval "{ exec \"\$@\" $from; } &"
    child=$!
}

run_with_hints() {
    find_reset
    . "$help/outputs.sh"
    hints='' watcher=''
    if [ -t 2 ] || [ -n "${LAS_HINTS-}" ]; then hints=1; fi
    if [ -z "$once" ]; then env --default-signal="${reset:-INT}" true 2>/dev/null || exec "$program" "$@"; fi
    own=$(mktemp -d "${TMPDIR:-/tmp}/las-run.XXXXXX" 2>/dev/null)
    [ -n "$own$once" ] || exec "$program" "$@"
    # what the program says, and what tells which files were written after it
    said=$own/said marker=$own/begun
    # (a byte, so that a line has room there also when the disk is full)
    { [ -n "$own" ] && printf '' >"$marker" && printf . >"$said"; } 2>/dev/null || hints=
    note_there "$@"
    [ -z "${LAS_SAFE-}" ] || tell_drafts "$@"
    child=
    for name in HUP INT QUIT TERM USR1 USR2; do
        # shellcheck disable=SC2064
        trap "caught=1; [ -z \"\$child\" ] || kill -s $name \"\$child\" 2>/dev/null" $name
    done
    start "$@"
    if [ -n "$hints" ] && [ -t 2 ]; then
        . "$help/progress.sh"
        watch "$child" "$@" &
        watcher=$!
    fi
    wait_for
    if [ -n "$watcher" ]; then
        printf '' 2>/dev/null >"$own/over"
        # (a shell says that it was ended, if the signal came before the trap)
        kill "$watcher" 2>/dev/null && wait "$watcher" 2>/dev/null
    fi
    if [ -n "$hints" ]; then
        line=$(cat -- "$said" && echo .)
        line=${line%.} line=${line#.}
        printf '%s' "$line" >&2
        line=${line%?}
        tell "$line" "$@"
    fi
    if [ "$status" -gt 128 ] && [ -n "$own" ]; then remove_drafts "$@"; fi
    end_as "$status"
}
