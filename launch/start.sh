# shellcheck shell=bash disable=SC2154 # sourced by a launcher, which sets top (the repository) and name
# Runs the program $name. On a terminal agc-console runs under console.py for Control-C, if there is Python 3, and under rlwrap
# for a prompt, line editing and the completion of its words and of the names in --names, if that is installed. A single argument,
# such as --help, begins no session. agc-dsky runs by terminal.sh; without a terminal it prints an error or its help.
# shellcheck source=launch/fit.sh
. "$top/launch/fit.sh"
ready || exit
case $name in
agc-console)
    if [ -t 0 ] && [ -t 1 ] && [ $# -gt 1 ]; then
        command=("$program")
        if python3 -I -c 'import ctypes' 2>/dev/null; then
            command=(python3 -I "$top/launch/console.py" "$program")
            case " $* " in *' --terminal '*) ;; *) command+=(--terminal) ;; esac
        fi
        command -v rlwrap >/dev/null || exec "${command[@]}" "$@"
        completed=(--file "$top/launch/console.words")
        for ((each = 1; each <= $#; each++)); do
            case ${!each} in
            --names) names=$((each + 1)) && names=${!names-} ;;
            --names=*) names=${!each#*=} ;;
            *) continue ;;
            esac
            # rlwrap would refuse a file that the program is to refuse
            [ ! -f "$names" ] || [ ! -r "$names" ] || completed+=(--file "$names")
        done
        exec rlwrap --substitute-prompt "$name> " "${completed[@]}" "${command[@]}" "$@"
    fi
    ;;
agc-dsky)
    # shellcheck source=launch/terminal.sh
    if [ -t 0 ] && [ -t 1 ]; then . "$top/launch/terminal.sh"; fi
    ;;
esac
exec -a "$name" "$program" "$@"
