# Read by scripts that build for other systems than the one that the kit links for: aarch64, and static programs.

# The programs that release/link links
# shellcheck disable=SC2034
LINKED="las-aarch64 las-x86-64-static las-aarch64-static"

# What Debian calls the packages that make these programs and the library for aarch64, or whose files they hold
PACKAGES="binutils binutils-aarch64-linux-gnu gcc-12 gcc-12-aarch64-linux-gnu libc6-dev libc6-dev-arm64-cross libgcc-12-dev
    libgcc-12-dev-arm64-cross"

# What installs them
# shellcheck disable=SC2034
INSTALL="apt-get install --no-install-recommends gcc libc6-dev gcc-aarch64-linux-gnu libc6-dev-arm64-cross"

# Prints one line, each package with its version, or `-` if it is not installed.
package_versions() {
    for package in $PACKAGES; do
        version=$(dpkg-query -W -f '${db:Status-Abbrev}${Version}' "$package" 2>/dev/null)
        case $version in 'ii '*) version=${version#ii } ;; *) version=- ;; esac
        printf '%s %s, ' "$package" "$version"
    done | sed 's/, $//'
    echo
}

# Prints the packages of the line $1 whose version is another one in the line $2, with both versions.
other_versions() {
    printf '%s\n' "$1" | sed 's/, /\n/g' | while read -r package version; do
        now=$(printf '%s\n' "$2" | sed 's/, /\n/g' | sed -n "s/^$package //p")
        [ "$now" = "$version" ] || printf '%s (%s there, %s here) ' "$package" "$version" "${now:--}"
    done
}

# The file $1 of the cross compiler for aarch64, or of the C library for it
cross_file() {
    found=$(aarch64-linux-gnu-gcc -print-file-name="$1")
    [ -f "$found" ] || found=/usr/aarch64-linux-gnu/lib/$1
    printf '%s\n' "$found"
}
