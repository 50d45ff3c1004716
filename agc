#!/bin/bash
# Runs the program that has this file's name. launch/start.sh finds it, and builds it if that is needed. The files agc,
# agc-study, agc-console and agc-dsky are one text: copies, because a link would lose its name on the next line, and some
# systems unpack a link as a file with a path in it.
[ ! -h "$0" ] || exec "$(readlink -f "$0")" "$@"
name=${0##*/}
case $0 in */*) top=${0%/*} ;; *) top=. ;; esac
# shellcheck source=launch/start.sh
. "$top/launch/start.sh"
