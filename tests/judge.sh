# shellcheck shell=bash disable=SC2034 # sourced
# The frame of a judge: a script of tests/ that begins with
#
#     . "$(dirname "$(readlink -f "$0")")/judge.sh" || exit
#
# A judge prints what is wrong, and ends with the line 'N passed, M failed'. One that cannot run ends with status 77, after
# a line that says why. AGC, STUDY, CONSOLE and DSKY name other programs than those of this repository. judge.py is the
# same frame for a judge in Python.
set -u
judge=${0##*/}
here=$(cd "$(dirname "$(readlink -f "$0")")" && pwd) || exit
top=${here%/*}
passed=0 failed=0 again=3 missed=()
# unshare's chroot is there, where not each user looks.
PATH=$PATH:/usr/sbin:/sbin

# A judge that calls a command that does not exist is wrong, and ends.
command_not_found_handle() { echo "$judge: there is no command $1" >&2 && kill "$$"; }

# cannot_run WHY: ends the judge, because it cannot run here
cannot_run() { echo "$judge: $*" && exit 77; }

# has NAME: succeeds if this machine has a command, a file, a browser, or a module of Python. PYTHON is the path of a Python with the
# module, and CHROMIUM that of the browser. BROWSER is the path of Debian's headless shell, the same browser without windows, which
# opens a page for a third of the processor time. Without it, and for figures and pictures of the documents, it is CHROMIUM.
has() {
    case $1 in
    browser)
        CHROMIUM=$(command -v chromium || command -v chromium-browser || command -v google-chrome) || return
        # The command of that name starts this program and stays beside it, so that the program would not end with the command.
        BROWSER=/usr/lib/chromium/chromium-headless-shell
        [ -x "$BROWSER" ] && [ -z "${FIGURES:-}${PICTURES:-}" ] || BROWSER=$CHROMIUM
        export CHROMIUM BROWSER
        ;;
    ensurepip | distributed | matplotlib | pandas)
        for PYTHON in python3 /usr/bin/python3; do
            ! command -v "$PYTHON" >/dev/null || ! "$PYTHON" -c "import $1" 2>/dev/null || return 0
        done
        return 1
        ;;
    /*) [ -e "$1" ] ;;
    *) command -v "$1" >/dev/null ;;
    esac
}

# needs NAME ..: ends the judge if this machine lacks one of these, or if one of these programs does not start. The
# variable of a program is its path.
needs() {
    local each
    for each; do
        case $each in
        agc) needs_program AGC agc ;;
        agc-study) needs_program STUDY agc-study ;;
        agc-console) needs_program CONSOLE agc-console ;;
        agc-dsky) needs_program DSKY agc-dsky ;;
        *) has "$each" || cannot_run "there is no $each (tests/packages prints how to install it)" ;;
        esac
    done
}

# needs_program VARIABLE NAME: exports the path of the program, and starts it once: what the launcher prints before a first
# start belongs to no check
needs_program() {
    local -n path=$1
    path=${path:-$top/$2}
    [[ $path != */* ]] || path=$(realpath -s -- "$path")
    export "${!path}"
    "$path" --help >/dev/null || exit 1
}

# skip_launcher VARIABLE NAME: has the variable of a program name what the launcher starts, for a judge that starts it thousands of times:
# the launcher takes most of a start's processor time. tests/launcher tries the launchers.
skip_launcher() {
    local -n path=$1
    [ "$path" != "$top/$2" ] || path=$(program_of "$2") || exit
}

# program_of NAME: prints the path of the program that a launcher starts; proves and builds it first if none fits the sources
program_of() (
    name=$1
    # shellcheck source=launch/fit.sh
    . "$top/launch/fit.sh"
    ready && echo "$program"
)

# make_scratch: makes a folder for files, which is removed when the judge ends
make_scratch() {
    scratch=$(mktemp -d) || exit
    # What a program in the background still writes must not stay.
    trap 'rm -rf "$scratch" 2>/dev/null || { sleep 1; rm -rf "$scratch"; }' EXIT
}

# holds WHAT COMMAND ..: checks that the command succeeds
holds() {
    if "${@:2}"; then
        passed=$((passed + 1))
    else
        echo "$judge: $1: no" >&2
        missed+=("$1")
        failed=$((failed + 1))
    fi
}

# is WHAT WANTED FOUND: checks that the two texts are the same
is() {
    if [ "$2" = "$3" ]; then
        passed=$((passed + 1))
    else
        printf '%s: %s: wanted\n%s\nfound\n%s\n' "$judge" "$1" "$2" "$(head -n 9 <<<"$3")" >&2
        missed+=("$1")
        failed=$((failed + 1))
    fi
}

# alone WHAT FILE: checks that a file of standard error has one line; otherwise prints what it has
alone() {
    local lines
    lines=$(wc -l <"$2")
    [ "$lines" -eq 1 ] || sed "s/^/| /" "$2" >&2
    holds "$1: alone" test "$lines" -eq 1
}

# attempt FUNCTION [WORD ..]: makes a try that depends on the clock or on a terminal. As in judge.py, one of which a check failed is
# made once more, its checks of the second time count, and a line says which failed the first time; three tries at most.
attempt() {
    local before=$passed was=$failed since
    missed=()
    "$@"
    [ "$failed" -gt "$was" ] && [ "$again" -gt 0 ] || return 0
    passed=$before failed=$was again=$((again - 1))
    since=$(printf '%s; ' "${missed[@]}")
    "$@"
    echo "$judge: made again: $1, since: ${since%; }"
}

# finish: prints the last line, and ends the judge
finish() {
    echo "$passed passed, $failed failed"
    [ "$failed" -eq 0 ] && [ "$passed" -gt 0 ]
    exit
}

# run_python FILE WORD ..: runs a judge's file. It finds judge.py, and the modules in the folders of `modules`. What it and the programs that
# it starts compile is kept in the folder `bytecode`, if a judge that starts many has one.
run_python() {
    PYTHONPATH=$here${modules:+:$modules} PYTHONPYCACHEPREFIX=${bytecode:-} PYTHONDONTWRITEBYTECODE=$([ -n "${bytecode:-}" ] || echo 1) python3 "$@"
}
