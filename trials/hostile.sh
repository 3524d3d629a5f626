#!/usr/bin/env bash
# Runs the commands on hostile recordings, and holds them to bounds: trials/hostile.sh PROGRAM [SCALE [KIND..]]
#
# Makes a recording of each kind of hostile.py, or of those that are given, at SCALE (from 0 to 1, without it 1), and
# runs each command that reads chunks on it, with 6 GB of memory (MEMORY, in KB) and 120 seconds (LIMIT) at most. A run
# has to end with status 0, 2, 5 or (verify) 7, in 20 seconds of processor time, and with a peak of at most 20 times the file's size
# and 64 MB of memory. The seconds are of processor time, since those of the clock depend on what else the machine does.
#
# Each run has a stack of 256 KB (STACK, in KB), which docs/jfr.1 says is enough.
#
# A kind whose name begins with patterns_ is for the patterns of an option: a list as long as a word can be, without
# wildcards and with them, and one pattern of 60 KB. Without wildcards the bounds are the usual ones. With them the seconds
# may grow with the product of the lengths, by 10 nanoseconds for each character of a pattern and each of a name, and by 25
# for each pattern of one character and each class. By smaller scales, these two runs take ten minutes each at scale 1.
#
# A kind whose name begins with known_ is for `mask --known`: with a file of 250,000 lines that are the texts of the
# recording, with one of 250,000 lines that have a character more, and with one in which each line is the first text.
# The size of this file counts, too.
#
# `verify` of a recording with itself and its receipt has both chunks in memory, so that its bound is 60 times both files.
#
# Of a kind that is a text for `build`, runs that command, which has to end with status 0, 5 or 8, and then `summary` and
# `scrub` on what it made, which they have to accept. For the text of a million records the bounds of `build` are 2 seconds
# and 10 times the file's size.
#
# With ONLY, a pattern as 'scrub*', just the commands whose label it matches.
#
# Prints a row for each run: kind, bytes, command, status, seconds of the clock and of the processor, peak memory with
# how many times the file's size it is, the line on the error stream, and which bound was missed; then how many runs
# there were, how many of them lacked memory, and how many missed a bound. The status is 0 where none did. Texts go to
# /dev/null, files to a temporary folder.
set -u
# shellcheck source=common.sh
. "$(dirname "$(readlink -f -- "$0")")/common.sh"
program=$(readlink -f "$1")
scale=${2:-1}
python=$(command -v python3)
shift $(($# > 2 ? 2 : $#))
[ -x /usr/bin/time ] || { echo "/usr/bin/time isn't there" >&2; exit 1; }
if [ $# -gt 0 ]; then kinds=("$@"); else mapfile -t kinds < <("$python" "$here/hostile.py"); fi
runs=0
lacking=0
missed=0

# One run: run LABEL WORD.., with its row.
run() {
    local label=$1 clock own system peak status mb bound='' line most=${seconds:-20} times=${memory:-20} limit=${LIMIT:-120}
    shift
    # A run that may take longer isn't ended before.
    [ "$limit" -ge $((2 * most)) ] || limit=$((2 * most))
    # shellcheck disable=SC2053 # it is a pattern
    [[ $label == ${ONLY-*} ]] || return 0
    rm -rf "$work/made" "$work/out.jfr"
    mkdir "$work/made"
    (
        ulimit -v "${MEMORY:-6000000}"
        ulimit -s "${stack:-${STACK:-256}}"
        exec /usr/bin/time -q -o "$work/took" -f '%e %U %S %M' timeout "$limit" "$program" "$@"
    ) >/dev/null 2>"$work/said"
    status=$?
    ended=$status
    read -r clock own system peak <<<"$(tail -n 1 "$work/took")"
    own=$(awk "BEGIN { printf \"%.2f\", $own + $system }")
    mb=$(awk "BEGIN { printf \"%.0f\", $peak / 1024 }")
    if [ "$kind:$label" = text_records:build ]; then most=2 times=10; fi
    case $status in
        0) ;;
        # A recording that `build` made is accepted.
        2) [[ $kind != text_* ]] || bound="$bound status" ;;
        7) [[ $label == verify* ]] || bound="$bound status" ;;
        8) [ "$label" = build ] || bound="$bound status" ;;
        5) lacking=$((lacking + 1)) ;;
        *) bound="$bound status" ;;
    esac
    if awk "BEGIN { exit !($own > $most) }"; then bound="$bound seconds"; fi
    if [ "$peak" -gt $((size * times / 1024 + 65536)) ]; then bound="$bound memory"; fi
    line=$(head -c 80 "$work/said" | tr '\n' ' ')
    echo "| $kind | $size | $label | $status | $clock | $own | $mb | $(awk "BEGIN { printf \"%.1f\", $peak * 1024 / $size }") | ${line% } | ${bound# } |"
    runs=$((runs + 1))
    [ -z "$bound" ] || missed=$((missed + 1))
}

# so_many COUNT: that many at this scale, and at least two.
so_many() { awk "BEGIN { n = int($1 * $scale); print n < 2 ? 2 : n }"; }

# repeated TEXT COUNT: the text so many times.
repeated() { yes "$1" | head -n "$2" | tr -d '\n'; }

# The runs of a kind for patterns. A list of patterns may be longer than what a stack of 256 KB leaves for words.
patterns() {
    local stack=8192 many length list
    if [ "$kind" = patterns_classes ]; then
        many=$(so_many 65535)
        list=$(repeated 'a,' "$many")b
        run 'scrub, exact' scrub --include-events "${list:2}" "$file" "$work/out.jfr"
        list=$(seq -s , -f 'jdk.t.C%.0f' "$(so_many 10000)")
        run 'scrub, names' scrub --include-events "$list" "$file" "$work/out.jfr"
        list=$(repeated '?,' "$many")b
        seconds=$(awk "BEGIN { print 20 + int($many * $(so_many 500000) * 25e-9) }") \
            run 'scrub, wildcards' scrub --include-events "${list:2}" "$file" "$work/out.jfr"
    else
        length=$(so_many 61440)
        list=$(repeated a "$length")
        run 'scrub, exact' scrub --include-events "$list" "$file" "$work/out.jfr"
        # The name and what follows its last dot are compared, here twice the same.
        seconds=$(awk "BEGIN { print 20 + int(2 * $length * $(so_many 1048576) * 10e-9) }") \
            run 'scrub, wildcards' scrub --include-events "*${list}b" "$file" "$work/out.jfr"
        list=$(repeated '*a' "$((length / 2))")
        run 'scrub, stars' scrub --include-events "${list}b" "$file" "$work/out.jfr"
    fi
}

# The runs of a kind for files of known texts.
known() {
    local recording=$size start='' lines=$work/lines
    [ "$kind" = known_texts ] || start=$(repeated a 300)
    seq -f "$start%07.0f" 0 $(($(so_many 250000) - 1)) >"$lines"
    size=$((recording + $(stat -c %s "$lines")))
    run 'mask, all known' mask --strings '*' --known "$lines" "$file" "$work/out.jfr"
    sed -i 's/$/x/' "$lines"
    size=$((recording + $(stat -c %s "$lines")))
    run 'mask, none known' mask --strings '*' --known "$lines" "$file" "$work/out.jfr"
    yes "${start}0000000" | head -n "$(so_many 250000)" >"$lines"
    size=$((recording + $(stat -c %s "$lines")))
    run 'mask, one known' mask --strings '*' --known "$lines" "$file" "$work/out.jfr"
    rm -f "$lines"
}

echo "| kind | bytes | command | status | seconds | of processor | peak MB | times | said | missed |"
echo "|---|---:|---|---:|---:|---:|---:|---:|---|---|"
for kind in "${kinds[@]}"; do
    file=$work/$kind.jfr
    "$python" "$here/hostile.py" "$file" "$kind" "$scale" || { echo "$kind isn't made" >&2; exit 1; }
    size=$(stat -c %s "$file")
    if [[ $kind == text_* ]]; then
        ended=''
        run build build "$file" "$work/out.jfr"
        if [ "$ended" = 0 ]; then
            mv "$work/out.jfr" "$file"
            size=$(stat -c %s "$file")
            run 'summary, built' summary "$file"
            run 'scrub, built' scrub "$file" "$work/out.jfr"
        fi
        rm -f "$file"
        continue
    fi
    if [[ $kind == patterns_* ]]; then
        patterns
        rm -f "$file"
        continue
    fi
    if [[ $kind == known_* ]]; then
        known
        rm -f "$file"
        continue
    fi
    run summary summary "$file"
    run metadata metadata "$file"
    run print print "$file"
    run 'print --json' print --json "$file"
    run 'print --depth 8' print --depth 8 "$file"
    run stacks stacks "$file"
    run scrub scrub "$file" "$work/out.jfr"
    mv "$work/out.jfr" "$work/scrubbed.jfr" 2>/dev/null
    run receipt receipt "$file" "$work/receipt"
    [ ! -e "$work/scrubbed.jfr" ] || run verify verify "$file" "$work/scrubbed.jfr" "$work/receipt"
    [ ! -e "$work/receipt" ] || memory=120 run 'verify, itself' verify "$file" "$file" "$work/receipt"
    rm -f "$work/scrubbed.jfr" "$work/receipt"
    run 'scrub, new keys' scrub --renumber yes "$file" "$work/out.jfr"
    run mask mask --strings '*' "$file" "$work/out.jfr"
    run 'mask, table' mask --strings '*' --table "$work/made/table" "$file" "$work/out.jfr"
    run 'scrub, threads' scrub --include-threads '*a*a*a*b,*a*a*a*c' "$file" "$work/out.jfr"
    run 'scrub, events' scrub --include-events '*a*a*a*b,*a*a*a*c' "$file" "$work/out.jfr"
    run 'scrub, categories' scrub --include-categories '*a*a*a*b,*a*a*a*c' "$file" "$work/out.jfr"
    run disassemble disassemble --output "$work/made" "$file"
    rm -f "$file"
done
echo
echo "$runs runs, $lacking lacked memory, $missed missed a bound"
[ "$missed" = 0 ]
