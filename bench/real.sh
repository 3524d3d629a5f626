#!/bin/bash
# Times the commands that read a recording, in turn with the JDK's if it has them, and checks what comes out:
# bench/real.sh PROGRAM FILE..
#
# For each file: each command ends with status 0. A scrub of a scrub's output gives the same bytes. The JDK's own
# `jfr summary` counts the same events in the file, in what a scrub without options made of it and in its parts
# together; in a scrub that keeps only the most frequent type of event it counts those; and `summary` has the same
# counts. So does the JDK's reader of events (Events.java) in a scrub's chunks one by one, and in the copy that
# recipes/jdk makes; how many events it misses in the scrub as a whole is printed, and is no failure (docs/VENDORS.md has
# the reason). The scrub passes `verify` with its receipts. The parts joined are the file again, byte for byte. On a
# file of less than a megabyte the values of `print --json` are those that the JDK prints (values.py).
#
# Prints a row for each command: seconds, MB of the file a second, bytes written to the output stream or to files,
# peak memory, and the seconds of the JDK's command, with how many times as long that takes. Seconds are the least and
# the middle of five runs, or of RUNS; this program and the JDK take turns, so that both meet a shared machine in the same minutes; texts
# go to /dev/null. The row `cp` is a copy of the file, for comparison. With ONLY, a pattern as 'scrub*', just the rows
# whose command it matches. The JDK is the one whose `jfr` is on the PATH, or in the folder JFR_BIN. Says what it skips
# where a tool is missing.
set -u
program=$(realpath "$1"); shift
here=$(dirname "$(readlink -f "$0")")
jdk=${JFR_BIN:+$JFR_BIN/}jfr
work=$(mktemp -d); trap 'rm -rf "$work"' EXIT
made=$work/made
bad=0

fail() { echo "$name: $*"; bad=1; }

# One run of a command whose text goes to the file named first, and which may write files to the folder `made`: its
# status and its seconds, in `status` and `took`.
once() {
    local text=$1 from to; shift
    rm -rf "$made"; mkdir "$made"
    from=$(date +%s.%N); "$@" >"$text" 2>"$work/errors"; status=$?; to=$(date +%s.%N)
    took=$(awk "BEGIN { printf \"%.3f\", $to - $from }")
}

# The least and the middle of numbers of seconds, of which there may be none.
least_and_middle() { printf '%s\n' "$@" | sort -n | awk '$1 != "" { of[NR] = $1 } END { print of[1] + 0, of[int((NR + 1) / 2)] + 0 }'; }

# How many times as long as the first number of seconds the second is.
times_of() { awk "BEGIN { printf \"%.1f\", $2 / ($1 > 0 ? $1 : 0.001) }"; }

# The seconds of the JDK's runs in turn with those of this program, in the lists `theirs` and `ours`. The words up to
# `--` are this program's command, those after it the JDK's; if there are none, or its command ends with another
# status than 0, it has no seconds.
race() {
    local mine=() its=()
    ours=() theirs=()
    while [ $# -gt 0 ] && [ "$1" != -- ]; do mine+=("$1"); shift; done
    [ -z "$has_jfr" ] || its=("${@:2}")
    for ((round = 0; round < ${RUNS:-5}; round++)); do
        if [ ${#its[@]} -gt 0 ]; then
            once /dev/null "$jdk" "${its[@]}"
            if [ "$status" = 0 ]; then theirs+=("$took"); else its=() theirs=(); fi
        fi
        once /dev/null "${mine[@]}"; ours+=("$took")
        [ "$status" = 0 ] || return
    done
}

# A row: a label, and what `race` takes, without the program. Leaves what was written in `text` and in `made`.
# Fails where the row isn't asked for, or the command has another status than 0.
row() {
    local label=$1 peak=- least middle its_least=- its_middle=- times=- by_middle=- mine=(); shift
    # shellcheck disable=SC2053 # ONLY is a pattern
    [[ $label == ${ONLY:-*} ]] || return 1
    race "$program" "$@"
    if [ "$status" != 0 ]; then fail "status $status of $label: $(cat "$work/errors")"; return 1; fi
    while [ $# -gt 0 ] && [ "$1" != -- ]; do mine+=("$1"); shift; done
    if [ -n "$has_time" ]; then
        once "$work/text" /usr/bin/time -o "$work/peak" -f %M "$program" "${mine[@]}"
        peak=$(awk '{ printf "%.0f", $1 / 1024 }' "$work/peak")
    else
        once "$work/text" "$program" "${mine[@]}"
    fi
    read -r least middle < <(least_and_middle "${ours[@]}")
    if [ ${#theirs[@]} -gt 0 ]; then
        read -r its_least its_middle < <(least_and_middle "${theirs[@]}")
        times=$(times_of "$least" "$its_least") by_middle=$(times_of "$middle" "$its_middle")
    fi
    echo "| $name | $label | $least | $middle | $(speed "$least") | $(written) | $peak | $its_least | $its_middle | $times | $by_middle |"
}

# MB of the file in a second.
speed() { awk "BEGIN { printf \"%.0f\", $size / 1000000 / ($1 > 0 ? $1 : 0.001) }"; }

# How many bytes there are in `text` and in `made`.
written() { find "$work/text" "$made" -type f -printf '%s\n' | awk '{ sum += $1 } END { printf "%.0f\n", sum }'; }

# The events of recordings and their numbers together, as the JDK counts them, without the records of metadata and
# checkpoints.
counts() {
    for one in "$@"; do "$jdk" summary "$one"; done |
        awk 'NF == 3 && $2 > 0 && $1 !~ /:$/ && tolower($1) !~ /^jdk\.(metadata|checkpoint)$/ { sum[$1] += $2 }
             END { for (type in sum) print type, sum[type] }' | sort
}

# The events of recordings and their numbers together, as the JDK's reader gives them.
events() { "${jdk%jfr}java" "$here/Events.java" "$@" | LC_ALL=C sort; }

# Reads a scrub chunk by chunk, in a copy by recipes/jdk, and as a whole.
read_scrub() {
    local missed
    rm -rf "$work/chunks" "$work/copy.jfr"; mkdir "$work/chunks"
    "$program" disassemble --output "$work/chunks" --max-chunks 1 "$1"
    events "$work/chunks"/* >"$work/read"
    same_counts "$work/read" <(LC_ALL=C sort "$work/counts") "the JDK's reader, chunk by chunk"
    "$here/../recipes/jdk" "$1" "$work/copy.jfr" 2>"$work/errors" || fail "recipes/jdk: $(cat "$work/errors")"
    same_counts "$work/read" <(events "$work/copy.jfr") "the JDK's reader, recipes/jdk"
    missed=$(LC_ALL=C join -a 1 "$work/read" <(events "$1") | awk '{ sum += $2 - $3 } END { print sum + 0 }')
    [ "$missed" = 0 ] || echo "$name: the JDK's reader misses $missed events of the scrub as a whole"
}

# Compares events and their numbers: those of the file, and others of this name.
same_counts() { diff "$1" "$2" >"$work/diff" || { fail "other events: $3"; head -n 10 "$work/diff"; }; }

# All commands on a file.
commands() {
    local parts=$work/parts type='' least middle
    rm -f "$work/out.jfr"
    if [ -n "$has_jfr" ]; then
        counts "$file" >"$work/counts"
        type=$(sort -k2 -n -r "$work/counts" | head -1 | cut -d' ' -f1)
        grep "^$type " "$work/counts" >"$work/one"
    fi
    if row scrub scrub "$file" "$made/out.jfr" -- scrub "$file" "$made/jdk.jfr"; then
        mv "$made/out.jfr" "$work/out.jfr"; rm -f "$work/again.jfr"
        "$program" scrub "$work/out.jfr" "$work/again.jfr"
        cmp -s "$work/out.jfr" "$work/again.jfr" || fail "a second scrub differs"
        [ -z "$has_jfr" ] || same_counts "$work/counts" <(counts "$work/out.jfr") scrub
        [ -z "$has_jfr" ] || read_scrub "$work/out.jfr"
    fi
    if [ -n "$type" ] && row "scrub of one type" scrub --include-events "$type" "$file" "$made/out.jfr" -- scrub --include-events "$type" "$file" "$made/jdk.jfr"; then
        same_counts "$work/one" <(counts "$made/out.jfr") "scrub of $type"
    fi
    row "scrub --renumber yes" scrub --renumber yes "$file" "$made/out.jfr"
    if row receipt receipt "$file" "$made/receipt" && [ -f "$work/out.jfr" ]; then
        mv "$made/receipt" "$work/receipt"
        row verify verify "$file" "$work/out.jfr" "$work/receipt"
    fi
    row stacks stacks "$file"
    for depth in 0 1 2; do row "print --depth $depth" print --depth $depth "$file" -- print "$file"; done
    row "print --json" print --json "$file" -- print --json "$file"
    row metadata metadata "$file" -- metadata "$file"
    if row summary summary "$file" -- summary "$file" && [ -n "$has_jfr" ]; then
        same_counts "$work/counts" <(awk 'NF == 3 && $2 > 0 { print $1, $2 }' "$work/text" | sort) summary
    fi
    if row disassemble disassemble --output "$made" --max-chunks 1 "$file" -- disassemble --output "$made" --max-chunks 1 "$file"; then
        rm -rf "$parts"; mv "$made" "$parts"
        [ -z "$has_jfr" ] || same_counts "$work/counts" <(counts "$parts"/*) parts
        if row assemble assemble "$parts" "$made/joined.jfr" -- assemble "$parts" "$made/joined.jfr"; then
            cmp -s "$file" "$made/joined.jfr" || fail "other bytes come back from the parts"
        fi
    fi
    if [ -n "$has_jfr" ] && [ "$size" -lt 1000000 ]; then
        "$program" print --json "$file" >"$work/ours"; "$jdk" print --json "$file" >"$work/theirs"
        python3 "$here/values.py" "$work/ours" "$work/theirs" || fail "other values"
    fi
    race cp "$file" "$made/copy.jfr"
    read -r least middle < <(least_and_middle "${ours[@]}")
    echo "| $name | cp | $least | $middle | $(speed "$least") | $size | - | - | - | - | - |"
}

has_jfr=$(command -v "$jdk" || true)
[ -n "$has_jfr" ] || echo "skipped: the JDK's jfr isn't there"
if [ -n "$has_jfr" ] && ! "$jdk" help scrub >/dev/null 2>&1; then echo "skipped: no jfr scrub (JDK 19 or later)"; fi
has_time=$(command -v /usr/bin/time || true)
[ -n "$has_time" ] || echo "skipped: peak memory (no /usr/bin/time)"

echo "| file | command | seconds | middle | MB/s | bytes written | peak MB | the JDK's | middle | times | by the middle |"
echo "|---|---|---:|---:|---:|---:|---:|---:|---:|---:|---:|"
for file in "$@"; do
    name=$(basename "$file"); size=$(stat -c %s "$file")
    commands
done
exit $bad
