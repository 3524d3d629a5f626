#!/usr/bin/env bash
# Tries a reader of recordings that isn't the JDK's on what comes out: trials/readers.sh PROGRAM CONVERTER FILE..
#
# CONVERTER is async-profiler's converter.jar, which reads recordings by code of its own: Debian's package
# async-profiler-java has it in /usr/share/async-profiler. It needs a `java` on the PATH.
#
# For each file, and for samples, allocations and locks by thread: the stacks with their numbers that CONVERTER finds in
# the file are those that it finds in a scrub without options, in one by recipes/vendor, which keeps all of these, and in
# the parts of the file joined. Prints a row for each, with how many stacks there are.
set -u
# shellcheck source=common.sh
. "$(dirname "$(readlink -f -- "$0")")/common.sh"
program=$(readlink -f "$1")
converter=$(readlink -f "$2")
shift 2
cp "$program" "$work/jfr" && cp -r "$top/recipes" "$work/recipes" || exit 1

# The stacks in a recording, one a line with its number, to the file named second.
stacks() { java -cp "$converter" jfr2flame --collapsed --threads --total $kind "$1" "$2" >/dev/null 2>"$work/errors"; }

# Compares the stacks of what was made with those of the file.
compare() {
    if ! stacks "$work/made.jfr" "$work/made.txt"; then
        fail "$name $kind: $1: $(head -1 "$work/errors")"
    elif ! cmp -s <(sort "$work/file.txt") <(sort "$work/made.txt"); then
        fail "$name $kind: $1: other stacks"
    else
        echo "| $name | ${kind:---cpu} | $1 | $(wc -l <"$work/made.txt") |"
    fi
}

echo "| file | stacks of | read from | how many |"
echo "|---|---|---|---:|"
for file; do
    name=$(basename "$file")
    for how in scrub vendor parts; do
        rm -rf "$work/made.jfr" "$work/parts"
        case $how in
            scrub) "$program" scrub "$file" "$work/made.jfr" ;;
            vendor) "$work/recipes/vendor" "$file" "$work/made.jfr" ;;
            parts) mkdir "$work/parts" && "$program" disassemble --output "$work/parts" "$file" \
                && "$program" assemble "$work/parts" "$work/made.jfr" ;;
        esac || { fail "$name: $how: status $?"; continue; }
        for kind in "" --alloc --lock; do
            stacks "$file" "$work/file.txt" || { fail "$name $kind: $(head -1 "$work/errors")"; continue; }
            compare "$how"
        done
    done
done
[ "$wrong" = 0 ]
