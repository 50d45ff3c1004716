# shellcheck shell=bash disable=SC2154 # sourced by start.sh, which has set top, name and program
# Runs agc-dsky on this terminal, and ends. While the program runs, the terminal passes on each key at once; afterwards it
# gets its modes back, however the program ends. The program is started under the path of its launcher, so that it can
# print the paths of agc and agc-study.
before=$(stty -g) || exit
# put_back: discards what the terminal still answers, so that the shell does not get it, and restores the modes
put_back() {
    while read -r -s -t 0.05 -n 1 _; do :; done
    stty "$before"
}
# The program itself sees that the terminal hangs up, and then saves the script.
trap '' HUP INT QUIT
# SIGTERM ends the program. Until the program runs, it is kept in `ended`.
child='' ended=''
trap 'ended=yes && kill "$child" 2>/dev/null' TERM
stty -icanon -echo -isig -ixon min 0 time 0
(exec -a "$top/$name" "$program" "$@") <&0 &
child=$!
# Bash can miss a signal that comes just before `wait`, but not during this.
sleep 0.05
[ -z "$ended" ] || kill "$child" 2>/dev/null
wait "$child"
status=$?
while kill -0 "$child" 2>/dev/null; do
    wait "$child"
    status=$?
done
# A program that was killed has not restored the screen.
[ "$status" -le 128 ] || printf '\033[0m\033[?7h\033[?25h\033[?1049l'
put_back 2>/dev/null
exit "$status"
