# shellcheck shell=bash
# What the trials share; each sources this file first. Makes the folder $work, which is removed when the trial ends, with
# the file system that may be mounted at $mounted, and counts the cases.
# shellcheck disable=SC2034 # not all are used by each
here=$(dirname "$(readlink -f -- "$0")")
top=$(dirname "$here")
work=$(mktemp -d)
mounted=
trap '[ -z "$mounted" ] || umount "$mounted"; rm -rf -- "$work"' EXIT
cases=0
wrong=0

# fail TEXT..: says what is wrong with a case.
fail() {
    echo "$*"
    wrong=$((wrong + 1))
}

# Prints how many cases there were; the status is 0 if none was wrong.
summary() {
    echo "$cases cases, $wrong wrong${skipped:+, $skipped skipped}"
    [ "$wrong" = 0 ]
}
