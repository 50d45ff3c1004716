# shellcheck shell=bash disable=SC2154,SC1090,SC2034,SC2016 # sourced by scripts that set top (the repository) and name
crate=${name//-/_}
program=$top/crates/$crate/out/$crate
shopt -s globstar
# ready: leaves the path of the program to run in `program`. A program that fits is found without starting a process.
ready() { { [ -z "${AGC_PREBUILT:-}" ] && is_fit; } || program=$("$top/launch/build" "$name"); }
# needed: prints the lines of crates.txt for the crates that the program needs. It reads crates.txt from its end, because
# a crate's line comes after the lines of the crates that it uses.
needed() {
    tac -- "$top/crates.txt" | awk -v wanted="$crate" 'BEGIN { needed[wanted] } { line = $0; sub(/#.*/, ""); sub(/:/, " : ") }
        / : / && $1 in needed { print line; for (i = 2; i <= NF; i++) needed[$i] }'
}
# is_fit: succeeds if the program exists and nothing that it is built from is newer: crates.txt, and the sources and source
# folders of the crates that it needs. Else `newer` is the first that is newer. A file beside the program lists the crates,
# so that a start runs no process. If that file cannot be written, the sources of all crates count.
is_fit() {
    local list=$program.sources
    [ "$list" -nt "$top/crates.txt" ] || { needed | sed 's#[ :].*##; s#.*#"$top"/crates/&/src/** \\#; 1s#^#set -- #' >"$list.$$" &&
        [ -s "$list.$$" ] && mv "$list.$$" "$list"; }
    . "$list" || set -- "$top"/crates/*/src/**
    for newer in "$top/crates.txt" "$@"; do [[ ! $newer -nt $program ]] || return; done
} 2>/dev/null
