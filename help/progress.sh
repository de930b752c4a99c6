# Read by help/hints.sh: shows on a terminal how far a run is that takes longer than two seconds, in one line that goes
# when it ends. What the program has read and written is told by the kernel (/proc/PID/io).

# The bytes of all inputs that the words name, and how often they are read
find_total() {
    total=0 option='' passes=1
    for word in "$@"; do
        if [ "$option" = -i ] && [ -f "$word" ]; then
            size=$(wc -c <"$word") && total=$((total + size))
        fi
        case $word in -lowest | -highest) passes=2 ;; esac
        case $option in -i | -o | -z) option= ;; *) option=$word ;; esac
    done
    total=$((total * passes))
}

# Sets `has_read` and `has_written`, in bytes, if the program runs.
read_counts() {
    has_read='' has_written=''
    while read -r name value; do
        case $name in
        rchar:) has_read=$value ;;
        wchar:) has_written=$value ;;
        esac
    done 2>/dev/null <"/proc/$1/io"
    [ -n "$has_written" ]
}

# Bytes as a reader wants them
amount() {
    if [ "$1" -ge 10000000000 ]; then echo "$(($1 / 1000000000)) GB"
    elif [ "$1" -ge 1000000 ]; then echo "$(($1 / 1000000)) MB"
    else echo "$(($1 / 1000)) KB"; fi
}

# Shows the line after a number of tenths of a second.
draw_line() {
    line="las: $(amount "$has_read") read, $(amount "$has_written") written, $(($1 / 10)) s"
    if [ "$total" -gt 0 ] && [ "$has_read" -le "$total" ]; then
        line="las: $((100 * has_read / total))% of $(amount "$total") read, ${line#* read, }"
    fi
    printf '\r\033[K%s\r' "$line" >&2
    drawn=1
}

erase_line() {
    [ -z "$drawn" ] || printf '\r\033[K' >&2
    drawn=
}

# Whether the program is about to put its report on the same terminal: it needs less than a second for what it has not
# read yet, or that is not known.
is_about_to_report() {
    [ -n "$reports" ] || return 1
    [ "$total" -gt 0 ] || return 0
    [ $(((total - has_read) * $1 / 10)) -lt "$((has_read + 1))" ]
}

# Watches the program $1 until it is ended itself.
watch() {
    drawn='' sleeper=''
    trap 'erase_line; [ -z "$sleeper" ] || kill "$sleeper" 2>/dev/null; exit' TERM
    # (a signal that came before the trap is lost)
    [ ! -e "$own/over" ] || return
    pause 2
    tenths=20
    find_total "$@"
    reports=
    if [ -t 1 ]; then
        case " $* " in *' lasinfo '* | *' make '* | *' -tally '*) reports=1 ;; esac
    fi
    while read_counts "$1"; do
        if is_about_to_report "$tenths"; then erase_line && return; fi
        draw_line "$tenths"
        pause .5
        tenths=$((tenths + 5))
    done
    erase_line
}

# Waits $1 seconds, or until a signal comes. A signal that comes right after the fork does not reach `sleep`, which then
# goes on, and is not to keep the terminal open.
pause() {
    sleep "$1" >/dev/null 2>&1 &
    sleeper=$!
    wait $sleeper
    sleeper=
}
