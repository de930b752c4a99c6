# Read by the launcher `las` in a checkout if no stamp holds: prints the path of the program that was built from the
# present sources, from the top of the checkout or absolute, and stamps it. Unpacks the released program or builds one
# if there is none. What it says goes to standard error.

true >&2 || exec 2>/dev/null
. "$top/release/processor.sh"
. "$top/release/build.sh"

# The names of what decides which program is the right one, as words of the shell, from the folder `crates`: the sources
# of `las` and of the crates that it stands on, with their folders; the release, the build, and the C library of the
# machine. In place of a file that is not there stands the folder that would get it.
watched_names() {
    CDPATH='' cd -P -- "$top/crates" || return 1
    {
        for name in ../release/BUILT_FROM las/out/las las/out/las.built_from las/out/las.stamp; do
            while [ ! -e "$name" ]; do name=${name%/*}; done
            printf '%s\n' "$name"
        done | sort -u
        for name in /lib64/ld-linux-x86-64.so.2 /lib/ld-linux-aarch64.so.1; do
            # (a program that runs without a C library runs beside one)
            if [ -e "$name" ]; then printf '%s\n' "$name"; fi
        done
        set -- ../crates.txt
        for crate in $(../release/sources --crates); do set -- "$@" "$crate/src"; done
        find "$@" -print
    } | LC_ALL=C sed "/[^A-Za-z0-9_./-]/{ s/'/'\\\\''/g; s/.*/'&'/; }"
}

# The words of a stamp by which `stat` tells to the millisecond when each watched file was changed last. A name from the
# top is one from `crates` here.
looking() {
    case $program in /*) from= ;; *) from=../ ;; esac
    # (no messages of another language are looked for)
    printf 'LC_ALL=C; export LC_ALL; CDPATH="" cd -P -- "$top/crates" && '
    printf 'exec %s -L -c %%.3Z -- %s"$program" ' "$1" "$from"
    printf '%s' "$2" | tr '\n' ' '
}

# What `find` tells of the sources alone
source_listing() {
    CDPATH='' cd -P -- "$top" && find crates.txt crates/*/src -printf '%p %y %s %T@ %C@ %D %i\n' 2>/dev/null
}

# Whether crates/las/out/las is a build from the sources with the sum $1: that is noted beside it, or `rt run` has left
# its own stamp, which it does only if nothing was changed meanwhile, and no source was touched since.
is_own_build() {
    own=$top/crates/las/out/las
    [ -f "$own" ] && [ -x "$own" ] || return 1
    if [ "$(named "$own.built_from" sources)" = "$1" ] &&
        [ "$(named "$own.built_from" program)" = "$(sum_of "$own")" ]; then
        return 0
    fi
    [ -f "$own.stamp" ] && [ "$(tail -c 64 "$own.stamp")" = "$(sum_of "$own")" ] || return 1
    set -- "$top/crates.txt"
    for crate in $("$top/release/sources" --crates); do set -- "$@" "$top/crates/$crate/src"; done
    newer=$(find "$@" -cnewer "$own.stamp" -print -quit) && [ -z "$newer" ]
}

# Prints the path of the released program $1 with the sum $2, unpacked in the folder $3, if that can be done there.
unpacked() {
    [ -x "$3/$1" ] && [ "$(sum_of "$3/$1")" = "$2" ] && printf '%s\n' "$3/$1" && return
    mkdir -p -- "$3" 2>/dev/null && fresh=$(mktemp "$3/.unpacked.XXXXXX" 2>/dev/null) || return 1
    if gzip -dc <"$top/release/$1.gz" >"$fresh" 2>/dev/null && [ "$(sum_of "$fresh")" = "$2" ] && chmod 755 "$fresh" &&
        [ -x "$fresh" ] && mv -f -- "$fresh" "$3/$1"; then
        printf '%s\n' "$3/$1"
    else
        rm -f -- "$fresh"
        return 1
    fi
}

# Prints the path of the released program $1 with the sum $2, unpacked where it can be, if it starts there.
unpacked_somewhere() {
    for folder in "$top/release/out" "$kept" once; do
        if [ "$folder" = once ]; then
            # neither place can be written: the launcher removes this one after the run
            once=$(mktemp -d "${TMPDIR:-/tmp}/las-once.XXXXXX" 2>/dev/null) || return 1
            folder=$once
        fi
        place=$(unpacked "$1" "$2" "$folder") || continue
        if [ -n "${LAS_PROGRAM-}" ]; then does_start "$place" || break; else starts "$place" || break; fi
        printf '%s\n' "$place"
        return
    done
    case ${once-} in */las-once.*) rm -rf -- "$once" ;; esac
    return 1
}

# Prints the path of the first released program that fits, or of the one that LAS_PROGRAM names, if the release is of the
# sources with the sum $1. Ends with status 2 if none is for this machine, which it says.
released() {
    [ "$(named "$top/release/BUILT_FROM" sources)" = "$1" ] || return 1
    [ -r /proc/cpuinfo ] || say "/proc is not mounted, so the processor is taken for one of x86-64-v2"
    suiting=
    for candidate in ${LAS_PROGRAM:-$PROGRAMS}; do
        sum=$(named "$top/release/BUILT_FROM" "$candidate")
        if [ -z "$sum" ] || [ ! -f "$top/release/$candidate.gz" ] || ! suits "$candidate"; then continue; fi
        suiting=1
        if unpacked_somewhere "$candidate" "$sum"; then return; fi
    done
    [ -z "${LAS_PROGRAM-}" ] || return 1
    if [ -z "$suiting" ]; then say_none && return 2; fi
    say "no released program could be unpacked and started, or it is not the one that release/BUILT_FROM names"
    return 1
}

# Writes the stamp for the program $1 in one of the two places, if one can be written; renamed, so that it is whole.
# There is none if a source was changed since it was read, if `find` or `stat` can't tell of changes here, or if the
# program's name has a quotation mark. `held` is set last: a stamp that is cut does not hold.
stamp_program() {
    program=$1
    stat=$(command -v stat)
    watched=$(watched_names)
    case $program$stat$boot in *\'*) return ;; esac
    looking=$(looking "'$stat'" "$watched")
    listed=$(eval "$looking" 2>/dev/null)
    now=$(source_listing)
    if [ "$before" != "$now" ]; then return; fi
    case $now in 'crates.txt f '*) ;; *) return ;; esac
    case $listed in [0-9]*.[0-9][0-9][0-9]*) ;; *) return ;; esac
    for stamp in "$top/release/out/stamp.sh" "$kept_stamp"; do
        folder=${stamp%/*}
        mkdir -p -- "$folder" 2>/dev/null && fresh=$(mktemp "$folder/.stamp.XXXXXX" 2>/dev/null) || continue
        # (readable, for others who use this checkout; a disk that is full and a limit on file size are no fault here)
        printf "program='%s'\n[ \"\$boot\" = '%s' ] && [ \"\$(%s)\" = '%s' ] && held=1\n" \
            "$program" "$boot" "$looking" "$listed" 2>/dev/null >"$fresh" && chmod 644 "$fresh" &&
            mv -f -- "$fresh" "$stamp" && return
        rm -f -- "$fresh"
    done
}

# Whether the disk has no room for a proof and what it builds; it is said then.
is_full() {
    left=$(df -Pk -- "$top" 2>/dev/null | awk 'NR == 2 { print $4 }')
    case $left in '' | *[!0-9]*) return 1 ;; esac
    [ "$left" -lt $NEEDED_KB ] || return 1
    say "no program is as new as the sources, and to prove and build one takes room: $left KB are left, and 1 GB is needed"
}

# What the crates take on the disk when they are built is some 300 MB.
NEEDED_KB=1000000
before=$(source_listing)
sources=$("$top/release/sources") || { say "the sources can't be read"; exit 1; }
is_named_well || exit 1
if [ -n "${LAS_PROGRAM-}" ]; then
    # (no stamp: the next start may be without the name)
    released "$sources" && exit
    say "$LAS_PROGRAM, which LAS_PROGRAM names, is not released from these sources, or does not start here"
    exit 1
elif is_own_build "$sources"; then
    chosen=$top/crates/las/out/las
elif chosen=$(released "$sources"); then
    :
elif [ $? -eq 2 ]; then
    exit 1
elif ! command -v rt >/dev/null; then
    say "no released program is of these sources, and the command rt of Rattle is missing"
    exit 1
elif is_full; then
    exit 1
else
    say "no program is as new as the sources; proving and building it, which takes up to 90 minutes of a processor"
    build || { say "the program could not be built"; exit 1; }
    chosen=$top/crates/las/out/las
    note_build "$sources"
fi
case $chosen in
*/las-once.*/*) ;;
"$top"/*) stamp_program "${chosen#"$top"/}" ;;
*) stamp_program "$chosen" ;;
esac
printf '%s\n' "$chosen"
