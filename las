#!/bin/sh
# Starts the program `las` with the words given, in the caller's folder, and shows help.
#
# In a checkout it runs a build of one's own that is as new as the sources, else the released program if that was built
# from the present sources, else it proves and builds the program first (release/choose.sh). Which program that is, is
# kept in a stamp, which holds while no source was changed, added or removed. Installed, it runs an installed program. Of
# the released or installed programs it takes the best that fits the machine, or the one that LAS_PROGRAM names.
set -u

# a limit on file size is then a write fault of the program, and not the signal that ends it
trap '' XFSZ

self=$0
case $self in */*) ;; *) self=$(command -v -- "$self") || self=./$0 ;; esac
if [ -L "$self" ]; then
    self=$(readlink -f -- "$self" && echo .)
    self=${self%??}
fi
case $self in /* | ./* | ../*) ;; *) self=./$self ;; esac
# some shells leave the script on a closed standard error
[ ! "/proc/$$/fd/2" -ef "$self" ] || exec 2>&-
top=${self%/*}
help=$top/help
[ -f "$top/crates.txt" ] || help=$top/../share/las/help

# Sets `program` as the stamp $1 names it, if that still holds. A stamp is words of the shell, which does them as they
# stand: they set `program`, have `stat` tell when each watched file was changed last, and if that is what it was, they
# set `held`. What changes a file, or the names in a folder, sets its ctime, which nobody can set back.
stamped() {
    [ -r "$1" ] || return 1
    program='' held=''
    # shellcheck disable=SC1090
    command . "$1" 2>/dev/null
    [ -n "$held" ] || return 1
    case $program in /*) ;; *) program=$top/$program ;; esac
}

# Sets `program`, or ends with status 1.
find_program() {
    if [ ! -f "$top/crates.txt" ]; then
        . "$top/../share/las/processor.sh"
        choose_in "$top/../libexec/las" || exit 1
        return
    fi
    kept=${XDG_CACHE_HOME:-${HOME:+$HOME/.cache}}
    kept=${kept:-/dev/null}/las
    boot=
    # shellcheck disable=SC2034
    read -r boot 2>/dev/null </proc/sys/kernel/random/boot_id
    [ -z "${LAS_PROGRAM-}" ] && stamped "$top/release/out/stamp.sh" && return
    # (of a checkout that can't be written)
    kept_stamp=$kept/checkouts$(CDPATH='' cd -P -- "$top" && pwd -P)/stamp.sh
    [ -z "${LAS_PROGRAM-}" ] && stamped "$kept_stamp" && return
    program=$(. "$top/release/choose.sh" </dev/null) || exit 1
}

if [ "${1-}" = --safe ]; then
    LAS_SAFE=${LAS_SAFE:-1}
    export LAS_SAFE
    shift
fi
if [ $# -eq 0 ]; then
    . "$help/help.sh"
    show las
fi
case $1 in
-h | --help | help | --version)
    . "$help/help.sh"
    answer "$@"
    ;;
laszip | las2las | lasinfo | lassplit | lasmerge | make)
    case ${2-} in
    -h | --help)
        . "$help/help.sh"
        show "$1"
        ;;
    esac
    ;;
esac

find_program
once=
case $program in */las-once.*/*) once=${program%/*} ;; esac
if [ -t 2 ] || [ -n "$once${LAS_HINTS-}${LAS_SAFE-}" ]; then
    . "$help/hints.sh"
    run_with_hints "$@"
fi
exec "$program" "$@"
