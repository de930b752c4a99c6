# Read by the launcher `las`: shows a page, or the version. Each function that shows one ends the launcher.

render() { folder=$help form=$1 topic=$2 words=${3-} LC_ALL=C awk -f "$help/render.awk" </dev/null; }

# Puts text on standard output, and ends with the status.
put() {
    printf '%s\n' "$1" 2>/dev/null && exit 0
    printf 'write fault\n' >&2
    exit 4
}

# Shows the page of a command or a cause, or of `las`.
show() {
    if [ "$1" = las-batch ]; then put "$(cat -- "$help/batch")"; fi
    if page=$(render page "$1"); then put "$page"; fi
    printf 'las: there is no help on %s; `las help` lists the commands\n' "$1" >&2
    exit 2
}

version() {
    read -r number <"$help/version"
    find_program
    sum=$(sha256sum <"$program" | cut -c 1-64) || exit 1
    kit=
    for file in "$program.built_from" "$top/release/BUILT_FROM" "$help/../BUILT_FROM"; do
        if [ -f "$file" ] && grep -q -- " $sum\$" "$file"; then
            kit=$(sed -n 's/^kit //p' "$file")
            break
        fi
    done
    [ -n "$kit" ] || kit=$(rt version 2>/dev/null) || kit="(not known)"
    case $program in /*) ;; *) program=$PWD/${program#./} ;; esac
    put "las $number
kit $kit
program $sum $program"
}

# Answers -h, --help, help, help TOPIC and --version.
answer() {
    case $1 in
    --version) version ;;
    help) if [ $# -gt 2 ]; then show "$2 $3"; else show "${2:-las}"; fi ;;
    *) show las ;;
    esac
}
