#!/usr/bin/env bash
# Times scrubs of many recordings, and of a long one in parts: bench/many.sh FILE [COUNT [BYTES]]
#
# Scrubs COUNT copies of FILE (100) by recipes/many, one at a time and with a job for each processor, by GNU parallel if
# it is installed and by xargs. Joins copies of FILE to a recording of BYTES or more (2000000000), and scrubs it by
# recipes/vendor, and in parts: split, scrubbed by recipes/many with a job for each processor, and joined. The outputs
# of each way must be the same. Needs the program, and room for four times what is scrubbed in the temporary folder.
#
# Prints a row for each way: recordings, bytes, jobs, seconds of the clock and of processors, and MB a second by the
# clock; then the times of the steps in parts. The status is 1 if an output differs or something failed.
set -u
top=$(dirname "$(dirname "$(readlink -f -- "$0")")")
file=$(readlink -f -- "$1")
count=${2:-100}
bytes=${3:-2000000000}
jobs=$(nproc)
work=$(mktemp -d)
trap 'rm -rf -- "$work"' EXIT
cd "$work" || exit 1
export JFR_BUILD=0
TIMEFORMAT='%R %U %S'

fail() {
    echo "$*" >&2
    exit 1
}

# timed COMMAND..: adds the seconds of the clock and of processors to `clock` and `own`.
timed() {
    local real user system
    read -r real user system < <({ time "$@" >>said 2>&1 || echo failed >failed; } 2>&1)
    [ ! -e failed ] || { tail said >&2; fail "$*: failed"; }
    clock=$(awk "BEGIN { print $clock + $real }")
    own=$(awk "BEGIN { print $own + $user + $system }")
}

# row WHAT RECORDINGS BYTES JOBS, and the seconds of `clock` and `own`.
row() {
    printf '| %s | %s | %s | %s | %.1f | %.1f | %.0f |\n' "$@" "$clock" "$own" "$(awk "BEGIN { print $3 / 1000000 / $clock }")"
}

# many NAME JOBS COMMAND..: a row for the folder of copies.
many() {
    local name=$1 at_once=$2
    shift 2
    clock=0 own=0
    timed "$@" "$top/recipes/many" --jobs "$at_once" vendor in "out-$name"
    row "$name" "$count" $((count * $(stat -c %s "$file"))) "$at_once"
    [ "$name" = one ] || diff -rq out-one "out-$name" >&2 || fail "$name: other outputs"
    [ "$name" = one ] || rm -rf "out-$name"
}

"$top/jfr" summary "$file" >/dev/null || fail "the program has to be built first"
mkdir in
for ((n = 1; n <= count; n++)); do cp -- "$file" "in/$n.jfr" || exit 1; done
echo '| how | recordings | bytes | jobs | seconds | of processors | MB/s |'
echo '|---|---:|---:|---:|---:|---:|---:|'
many one 1 env
if parallel --version 2>/dev/null | grep -q '^GNU parallel'; then many parallel "$jobs" env; fi
mkdir empty && printf '#!/bin/sh\nexit 1\n' >empty/parallel && chmod +x empty/parallel
many xargs "$jobs" env PATH="$work/empty:$PATH"
rm -rf in out-one

while [ ! -e long.jfr ] || [ "$(stat -c %s long.jfr)" -lt "$bytes" ]; do cat -- "$file" >>long.jfr || exit 1; done
size=$(stat -c %s long.jfr)
clock=0 own=0
timed "$top/recipes/vendor" long.jfr whole.jfr
row 'one run' 1 "$size" 1
clock=0 own=0
mkdir parts
timed "$top/jfr" disassemble --output parts --max-chunks 1000000 --max-size $((size / jobs / 4)) long.jfr
split=$clock
timed "$top/recipes/many" vendor parts scrubbed
scrubbed=$clock
timed "$top/jfr" assemble scrubbed joined.jfr
row 'in parts' "$(find parts -type f | wc -l)" "$size" "$jobs"
awk "BEGIN { printf \"split %.1f s, scrubbed %.1f s, joined %.1f s\\n\", $split, $scrubbed - $split, $clock - $scrubbed }"
cmp whole.jfr joined.jfr || fail 'the parts give another output'
