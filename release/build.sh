# Read by scripts that build the program: they set `top` to the top of the checkout. What is said goes to standard
# error.

say() { printf 'las: %s\n' "$1" >&2; }

sum_of() { sha256sum <"$1" | cut -c 1-64; }

# The value of the line $2 of the file $1, which is as BUILT_FROM
named() {
    while read -r name value; do
        [ "$name" = "$2" ] && printf '%s\n' "$value" && return
    done 2>/dev/null <"$1"
}

# Proves and builds crates/las/out/las, naming each crate as its check begins; what rt says is kept for the case that it
# fails.
build() {
    log=$(mktemp) || return 1
    names=" $("$top/release/sources" --crates | tr '\n' ' ')"
    count=$(printf '%s' "$names" | wc -w)
    (cd -P -- "$top/crates/las" && rt run </dev/null 2>&1 >/dev/null) | tee -- "$log" | {
        last=
        while IFS= read -r line; do
            case $line in
            "rt: chose --jobs "*) crate=${line##* for } ;;
            "checked "*::* | "fn "*::* | "struct "*::* | "enum "*::* | "impl "*::*)
                crate=${line#* } crate=${crate%%::*}
                ;;
            *) continue ;;
            esac
            case $names in *" $crate "*) ;; *) continue ;; esac
            [ "$crate" != "$last" ] || continue
            last=$crate
            earlier=${names%%" $crate "*}
            say "proving $crate (crate $(($(printf '%s' "$earlier" | wc -w) + 1)) of $count)"
        done
    }
    if grep -q '^rt: running ' "$log"; then
        rm -f -- "$log"
        return 0
    fi
    tail -n 20 -- "$log" >&2
    rm -f -- "$log"
    return 1
}

# Notes beside the build which sources it is from, if these have not changed meanwhile.
note_build() {
    own=$top/crates/las/out/las
    [ "$1" = "$("$top/release/sources")" ] || return 0
    {
        printf 'kit %s\n' "$(rt version)"
        printf 'sources %s\n' "$1"
        printf 'program %s\n' "$(sum_of "$own")"
    } >"$own.built_from"
}

# The tools that join and link the objects of the library
linker() { printf '%s, %s\n' "$(ld --version | head -n 1)" "$(objcopy --version | head -n 1)"; }

# Joins the archive $1 of the proved code and the three calls by which it asks the C library for memory to the object
# laz.o in the folder $2. Only the calls of las.h keep their names, so that two such libraries can stand in one program.
# For another processor $3 is the beginning of its tools' names, and $4 has the three calls.
joined() {
    "${3-}ld" -r --whole-archive "$1" "${4-$(dirname -- "$(rt doc)")/c/liblibc_c.a}" -o "$2/laz.o" || return 1
    "${3-}objcopy" --wildcard --keep-global-symbol='laz_c_*' --strip-debug --remove-section=.comment "$2/laz.o"
}

# The tools that compile the sources for whole files, and the module for other machines
compiler() {
    tools=$(dirname -- "$(rt doc)")/toolchain/bin
    printf '%s, %s, %s\n' "$("$tools/clang" --version 2>/dev/null | head -n 1)" \
        "$("$tools/ld.lld" -flavor wasm --version 2>/dev/null | head -n 1)" \
        "$(wasm-opt --version 2>/dev/null || echo 'no wasm-opt')"
}
