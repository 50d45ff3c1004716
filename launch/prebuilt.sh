# shellcheck shell=bash disable=SC2154,SC2034 # sourced by scripts that set top (an absolute path)
# The prebuilt programs. prebuilt/README.md describes the files.
launchers=(agc agc-study agc-console agc-dsky)
# agc_alloc_probe is for tests/hostile.
programs=("${launchers[@]}" agc_alloc_probe)

# folders: prints the folders of prebuilt/ with programs for this machine. The later ones are for an older system.
folders() {
    case $(uname -m) in
    x86_64) echo x86_64-linux x86_64-linux-static ;;
    aarch64) echo aarch64-linux ;;
    esac
}

# choose NAME: takes a program
choose() {
    name=$1 prebuilt=$top/prebuilt/x86_64-linux/$1 list=$top/prebuilt/$1.sources
    # shellcheck source=launch/fit.sh
    . "$top/launch/fit.sh"
}

# sources: prints the SHA-256 and path of each source of the program, and the lines of crates.txt for its crates.
sources() (
    cd -- "$top" && mapfile -t lines <<<"$(needed)" && files=()
    for each in "${lines[@]%%[ :]*}"; do
        for file in crates/"$each"/src/**; do [ ! -f "$file" ] || files+=("$file"); done
    done
    { printf '# %s\n' "${lines[@]}" && sha256sum -- "${files[@]}"; } | LC_ALL=C sort
)

# is_current: succeeds if the sources are those that the prebuilt program was built from. ports/build made the programs in
# the other folders, and has written the digest of the list of their sources.
is_current() {
    case $prebuilt in
    */x86_64-linux/*) [ "$(sources)" = "$(<"$list")" ] ;;
    *) grep -qx "# $name sources $(sources | sha256sum | cut -c -64)" "${prebuilt%/*}/MANIFEST" ;;
    esac
} 2>/dev/null

# changed: prints the paths of the sources for which that is not so.
changed() { sources | LC_ALL=C comm -3 - "$list" | sed 's/^\t//; s/^#.*/crates.txt/; s/^[0-9a-f]*  //' | LC_ALL=C sort -u; }

# difference: sets `differs` to what has changed: the paths of at most five sources
difference() {
    local paths more
    mapfile -t paths < <(changed)
    more=$((${#paths[@]} - 5)) differs="changed since the prebuilt program was built: ${paths[*]:0:5}"
    [ "$more" -le 0 ] || differs+=" and $more more"
    [ "${#paths[@]}" -gt 0 ] || differs="$(basename "${prebuilt%/*}") in prebuilt/ has the program of other sources"
}

# is_whole: succeeds if the prebuilt program and the list of its sources are the two files that MANIFEST names, and in another
# folder than x86_64-linux if it is the file that the folder's MANIFEST names.
is_whole() (
    [[ $prebuilt = */x86_64-linux/* ]] || { cd -- "${prebuilt%/*}" && named=$(awk -v name="$name" '$2 == name' MANIFEST) &&
        sha256sum --check --strict --status <<<"$named"; exit; }
    cd -- "$top/prebuilt" && named=$(awk -v name="$name" '$2 == "x86_64-linux/" name || $2 == name ".sources"' MANIFEST) &&
        [ "$(wc -l <<<"$named")" -eq 2 ] && sha256sum --check --strict --status <<<"$named"
) 2>/dev/null

# can_start: takes the first prebuilt program for this machine that starts, if it is whole. Else `why` is the reason.
can_start() {
    local folder libc machine reason='' words=(--help)
    [ "$name" != agc_alloc_probe ] || words=()
    machine=$(uname -m)
    why="there is no prebuilt program for this machine, $machine"
    for folder in $(folders); do
        prebuilt=$top/prebuilt/$folder/$name
        [ -e "$prebuilt" ] || { why="there is no prebuilt program" && continue; }
        why="prebuilt/$folder/$name or prebuilt/$name.sources is not the file that prebuilt/MANIFEST names" && is_whole || return
        ! why=$("$prebuilt" "${words[@]}" 2>&1 >/dev/null) || return 0
        reason=${reason:-$why}
    done
    [ -n "$reason" ] || return
    libc=$(getconf GNU_LIBC_VERSION 2>/dev/null)
    why=${reason%%$'\n'*} && why=${why#*: line *: }
    why="the prebuilt program needs x86-64 Linux with glibc 2.34 or later, and does not start here ($HOSTTYPE${libc:+, $libc}): $why"
    return 1
}
