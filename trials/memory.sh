#!/usr/bin/env bash
# Tries each command under limits on its memory: trials/memory.sh PROGRAM FILE [STEP]
#
# The limit on the address space rises by STEP KiB (64 where it isn't given) from where the program can start until
# each command has twice ended with 0 in a row, so that each allocation that asks the system for more fails in turn.
# Under each limit a command must end with 0 or 5: with 5 the error stream has a prefix of 'out of memory', and the
# output stream or the output file has a prefix of what it has without a limit. Prints for each command
# how many limits were tried, how often it ended with 0 and with 5, and what was wrong; the status is 0 where nothing
# was.
set -u
# shellcheck source=common.sh
. "$(dirname "$(readlink -f -- "$0")")/common.sh"
program=$(readlink -f "$1")
file=$(readlink -f "$2")
step=${3:-64}
cd "$work" || exit 1

# The least limit, in KiB, under which the program can say how its words go.
start=1024
until (ulimit -v $start && exec "$program" >/dev/null 2>&1) 2>/dev/null; [ $? = 1 ]; do
    start=$((start + step))
    [ $start -gt 1048576 ] && { echo 'the program does not start under any limit'; exit 1; }
done

# is_prefix PART WHOLE: the file PART isn't there, or has the first bytes of WHOLE.
is_prefix() {
    [ ! -e "$1" ] || cmp -s -n "$(stat -c %s "$1")" "$1" "$2"
}

# try NAME OUTPUT WORDS..: OUTPUT is the name of the file that the command makes, or - for the output stream.
try() {
    local name=$1 output=$2 limit=$start done=0 tried=0 well=0 lacking=0 status
    shift 2
    rm -rf whole whole.txt
    "$program" "$@" >whole.txt 2>/dev/null || { fail "$name: status $? without a limit"; return; }
    [ "$output" = - ] || mv "$output" whole
    while [ $done -lt 2 ]; do
        rm -f "$output"
        (ulimit -v $limit && exec "$program" "$@" >out 2>err)
        status=$?
        tried=$((tried + 1))
        case $status in
            0) done=$((done + 1)); well=$((well + 1)) ;;
            5) done=0; lacking=$((lacking + 1)) ;;
            *) fail "$name under $limit KiB: status $status" ;;
        esac
        if ! is_prefix err <(echo 'out of memory') || ! is_prefix out whole.txt || { [ "$output" != - ] && ! is_prefix "$output" whole; }; then
            fail "$name under $limit KiB: what was written is wrong"
        fi
        limit=$((limit + step))
        [ $tried -gt 20000 ] && { fail "$name: no end at $limit KiB"; return; }
    done
    rm -f "$output"
    echo "$name: $tried limits from $start KiB, $well done, $lacking out of memory"
}

mkdir parts joined
"$program" disassemble --output parts --max-chunks 1 "$file" && "$program" scrub "$file" scrubbed.jfr &&
    "$program" receipt "$file" scrubbed.receipt || exit 1
{
    printf 'class 1 long\nclass 2 java.lang.String\nclass 4 t.Name\nfield text 2 -\n'
    printf 'event 3 t.E\nfield number 1 -\nfield name 4 c\n'
    for number in {1..5000}; do echo "constant 4 $number \"name-$number\""; done
    for number in {1..5000}; do echo "record 3 $number #$number"; done
} >text
try summary - summary "$file"
try metadata - metadata "$file"
try print - print --depth 8 "$file"
try 'print --json' - print --json "$file"
try scrub out.jfr scrub "$file" out.jfr
try 'scrub by threads' out.jfr scrub --include-threads 'main*' "$file" out.jfr
try 'scrub --renumber yes' out.jfr scrub --renumber yes "$file" out.jfr
try mask out.jfr mask --strings '*' "$file" out.jfr
try receipt out.receipt receipt "$file" out.receipt
try verify - verify "$file" scrubbed.jfr scrubbed.receipt
try stacks - stacks "$file"
try build out.jfr build text out.jfr
mkdir part
stem=$(basename "$file" .jfr)
try disassemble "part/${stem}_000001.jfr" disassemble --output part --max-chunks 1000000 "$file"
try assemble out.jfr assemble parts out.jfr
try sample - sample 1 20000
[ "$wrong" = 0 ]
