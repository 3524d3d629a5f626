#!/usr/bin/env bash
# Times the first minutes with a fresh clone: bench/first.sh FILE
#
# Clones this repository, without `rt` on the PATH, and scrubs FILE by recipes/vendor; then again, by the program that is
# there now. Prints the seconds of each step. The status is 1 if a step fails, or if the first recording took two seconds
# or more from the end of the clone.
set -u
top=$(dirname "$(dirname "$(readlink -f -- "$0")")")
file=$(readlink -f -- "$1")
work=$(mktemp -d)
trap 'rm -rf -- "$work"' EXIT
cd "$work" || exit 1
PATH=/usr/bin:/bin
! command -v rt >/dev/null || exit 1
TIMEFORMAT=%R

# step NAME COMMAND..: prints its seconds, and leaves them in `took`.
step() {
    local name=$1
    shift
    took=$({ time "$@" >said 2>&1 || echo failed >failed; } 2>&1)
    [ ! -e failed ] || { cat said >&2; exit 1; }
    echo "$name: $took s"
}

step 'the clone' git clone -q "$top" clone
step 'the first recording' clone/recipes/vendor "$file" first.jfr
first=$took
step 'the second' clone/recipes/vendor "$file" second.jfr
step './jfr summary' clone/jfr summary second.jfr
cmp first.jfr second.jfr && awk "BEGIN { exit !($first < 2) }"
