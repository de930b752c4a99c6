# Tells which of the released programs fits this machine: by the processor, as the kernel tells of it, and by the C library.

# The released programs. Of those that fit, the first is taken.
PROGRAMS="las-x86-64-v3 las-x86-64-v2 las-x86-64-static las-aarch64 las-aarch64-static"

SYSTEMS="there are programs for Linux on x86_64, of x86-64-v2 or later, and on aarch64"

# What was found, for the next question. Nothing of it comes from the environment.
flags='' machine=''

# Sets `flags` to those of the first processor, with a blank at both ends. The shell reads byte by byte, so it is done
# once.
read_flags() {
    [ -z "$flags" ] || return 0
    while read -r field flags; do
        case $field in flags) break ;; esac
        flags=
    done 2>/dev/null </proc/cpuinfo
    flags=" ${flags#: } "
}

has_flags() {
    for flag in "$@"; do
        case $flags in *" $flag "*) ;; *) return 1 ;; esac
    done
}

# Whether programs for x86-64-v3 run. The kernel names lzcnt `abm`, and names `xsave` and `avx` only if it has them
# switched on (osxsave).
runs_v3() {
    read_flags
    has_flags cx16 lahf_lm popcnt sse4_1 sse4_2 ssse3 avx avx2 bmi1 bmi2 f16c fma abm movbe xsave
}

# Whether programs for x86-64-v2 run. A kernel that names no flags is taken to be one on such a processor.
runs_v2() {
    is_machine x86_64 || return 1
    read_flags
    case $flags in
    *[!\ ]*) has_flags cx16 lahf_lm popcnt sse4_1 sse4_2 ssse3 ;;
    esac
}

# Whether glibc 2.34 or later is there, as far as can be told without starting a program: its loader $1, and in one of
# the other folders its libc.so.6. That is a file since 2.34, and was a link to a file with the version in its name.
has_libc() {
    [ -e "$1" ] || return 1
    shift
    for library in "$@"; do
        library=$library/libc.so.6
        if [ -f "$library" ] && [ ! -L "$library" ]; then return 0; fi
    done
    return 1
}

# The same for the processor $1
has_glibc() {
    case $1 in
    x86_64) has_libc /lib64/ld-linux-x86-64.so.2 /lib64 /lib/x86_64-linux-gnu ;;
    aarch64) has_libc /lib/ld-linux-aarch64.so.1 /lib64 /lib/aarch64-linux-gnu ;;
    esac
}

# Whether the system runs programs for the processor $1. Only the second question takes another process.
is_machine() {
    if [ -z "$machine" ]; then
        read_flags
        if has_flags lm && has_glibc x86_64; then machine=x86_64; else machine=$(uname -m); fi
    fi
    [ "$machine" = "$1" ]
}

# Whether the program of the name $1 is for this processor
suits() {
    case $1 in
    las-x86-64-v3) runs_v2 && runs_v3 ;;
    las-x86-64-*) runs_v2 ;;
    las-aarch64*) is_machine aarch64 ;;
    *) return 1 ;;
    esac
}

# Whether the program $1, which suits the processor, starts. It is tried only if nothing else tells.
starts() {
    case $1 in
    *-static) return 0 ;;
    */las-aarch64*) has_glibc aarch64 && return 0 ;;
    *) has_glibc x86_64 && return 0 ;;
    esac
    does_start "$1"
}

does_start() { [ "$("$1" 2>&1 </dev/null)" = "usage: word 0" ]; }

# Says why there is no program, on standard error.
say_none() {
    if ! is_machine x86_64; then set -- "no program runs on $machine"
    elif ! runs_v2; then set -- "this processor is older than x86-64-v2"
    else set -- "none of the programs starts on this system"; fi
    printf 'las: %s: %s\n' "$1" "$SYSTEMS" >&2
}

# Whether LAS_PROGRAM names a released program, if it is set; else it is said.
is_named_well() {
    case " $PROGRAMS " in *" ${LAS_PROGRAM:-las-x86-64-v2} "*) return 0 ;; esac
    printf 'las: LAS_PROGRAM names no released program; there are: %s\n' "$PROGRAMS" >&2
    return 1
}

# Sets `program` to the first program in the folder $1 that fits, or to the one that LAS_PROGRAM names.
choose_in() {
    is_named_well || return 1
    for candidate in ${LAS_PROGRAM:-$PROGRAMS}; do
        program=$1/$candidate
        if [ ! -x "$program" ] || ! suits "$candidate"; then continue; fi
        if [ -n "${LAS_PROGRAM-}" ]; then does_start "$program" && return; else starts "$program" && return; fi
    done
    if [ -z "${LAS_PROGRAM-}" ]; then say_none
    else printf 'las: %s, which LAS_PROGRAM names, is not installed or does not start here\n' "$LAS_PROGRAM" >&2; fi
    return 1
}
