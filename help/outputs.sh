# Read by help/hints.sh: what is known of the outputs that the words name. Only what this run has made or written is
# ever called a part, as told by what was there before it and by the file `marker`, which was made right before it began.

# Calls $1 with each value of -o and -z.
each_output() {
    call=$1
    shift
    option='' command=${1-}
    for word in "$@"; do
        case $option in -o | -z) "$call" "$word" ;; esac
        case $option in -i | -o | -z) option= ;; *) option=$word ;; esac
    done
}

# Notes in `there` which outputs are there before the run; a name is kept between line feeds.
note_there() {
    there='
'
    each_output note_one "$@"
    if [ -n "$hints" ] && { [ ${#there} -gt 1 ] || [ "${1-}" = lassplit ]; }; then pass_marker; fi
}

# Waits until a file that is written is newer than the marker: file systems count time in steps of some milliseconds. It
# gives up on a full disk, and after some 0.1 s if the clock was set back.
pass_marker() {
    turns=0
    while [ $turns -lt 10000 ] && printf '' >"$own/later" && ! [ "$own/later" -nt "$marker" ]; do
        turns=$((turns + 1))
    done 2>/dev/null
}

note_one() {
    ! [ -e "$1" ] || there="$there$1
"
}

# How the run has changed a name: made, changed, or nothing.
fate_of() {
    case $1 in -*) set -- "./$1" "$1" ;; *) set -- "$1" "$1" ;; esac
    [ -f "$1" ] || return 1
    case $there in
    *"
$2
"*)
        [ "$1" -nt "$marker" ] || return 1
        echo changed
        ;;
    *) echo made ;;
    esac
}

# Tells of each output that the run has begun that it may be a part.
tell_parts() {
    told_parts=
    each_output tell_part "$@"
    if [ -n "$told_parts" ] && [ -z "${LAS_SAFE-}" ]; then
        hint "By \`las --safe ${1-COMMAND} ...\` an output gets its name only when it is whole."
    fi
}

tell_part() {
    if [ "$command" = lassplit ]; then
        tell_split_parts "$1"
        return
    fi
    fate=$(fate_of "$1") || return 0
    told_parts=1
    if [ "$fate" = made ]; then
        hint "'$(plain "$1")' is perhaps a part: this run has made it. Remove it, or keep what it holds."
    else
        hint "'$(plain "$1")' is perhaps a part: this run has written over the file that was there."
    fi
}

# The parts of lassplit that were written in this run
tell_split_parts() {
    stem=${1%.*} count=0
    case $stem in /*) ;; *) stem=./$stem ;; esac
    for part in "$stem"_[0-9]*; do
        if [ -f "$part" ] && [ "$part" -nt "$marker" ]; then
            [ $count -gt 0 ] || first=${part#./}
            last=${part#./} count=$((count + 1))
        fi
    done
    [ $count -gt 0 ] || return 0
    told_parts=1
    hint "This run has written $count files, '$(plain "$first")' to '$(plain "$last")'; each may lack records."
}

# Removes the drafts of the child that a signal has ended, whose names have its process number.
remove_drafts() {
    [ -n "${LAS_SAFE-}" ] && [ "$LAS_SAFE" != keep ] || return 0
    each_output remove_drafts_of "$@"
}

remove_drafts_of() {
    case $1 in -*) set -- "./$1" ;; esac
    place=$(readlink -f -- "$1" && echo .) || return 0
    place=${place%??}
    place=${place%/*}
    for draft in "$place"/.*.las-"$child"-*.part; do
        # (an older one is of another program that had this number)
        if [ -f "$draft" ] && ! [ -L "$draft" ] && ! [ "$marker" -nt "$draft" ]; then rm -f -- "$draft"; fi
    done
}

# Tells of drafts beside the outputs that no run holds locked: those of runs that were killed. A run locks its draft right
# after it has made it, and must not find it locked by this, so a draft counts when it is a minute old.
tell_drafts() {
    command -v flock >/dev/null || return 0
    looked='
'
    each_output tell_drafts_beside "$@"
}

tell_drafts_beside() {
    case $1 in -*) set -- "./$1" ;; esac
    place=$(readlink -f -- "$1" && echo .) || return 0
    place=${place%??}
    place=${place%/*}
    case $looked in *"
${place:=/}
"*) return 0 ;; esac
    looked="$looked$place
"
    # (`flock NAME` would make a file)
    # shellcheck disable=SC2016
    count=$(find "$place" -maxdepth 1 -type f -name '.*.las-*-*.part' -mmin +1 -exec sh -c \
        'exec 9<"$1" && flock -n 9 && echo' sh '{}' ';' 2>/dev/null | wc -l)
    [ "$count" -gt 0 ] || return 0
    place="'$(plain "$place")'"
    hint "las: $place has $((count)) drafts of runs that have ended; to remove them: las-batch clean $place"
}

# Tells of names of outputs that are perhaps not what was meant.
note_names() { each_output note_name "$@"; }

note_name() {
    case $1 in
    -) hint "The output is a file of the name '-': points are not written to standard output." ;;
    -*)
        if [ -n "$(render option "$command" "$1")" ]; then
            hint "'$(plain "$1")' is taken as the name of the output here, since it follows $option."
        else
            hint "The output has a name that begins with a dash: '$(plain "$1")'."
        fi
        ;;
    esac
}

# Tells of an output whose ending is of the other kind than what is in it.
note_contents() {
    case " $* " in *' -olas '* | *' -olaz '*) return ;; esac
    each_output note_content "$@"
}

note_content() {
    case $1 in -*) set -- "./$1" ;; esac
    case $1 in
    *.las | *.LAS) wanted=plain ;;
    *.laz | *.LAZ) wanted=packed ;;
    *) return 0 ;;
    esac
    [ -f "$1" ] || return 0
    byte=$(od -An -tu1 -j104 -N1 -- "$1" 2>/dev/null) || return 0
    byte=$((byte + 0)) kind=plain
    [ $byte -lt 128 ] || kind=packed
    [ $kind = $wanted ] || hint "'$(plain "$1")' is $kind, as its ending does not say."
}
