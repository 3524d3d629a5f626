#!/usr/bin/env bash
# Tries masks of recordings: trials/masks.sh PROGRAM FILE..
#
# Each FILE is masked in six ways: all texts; those of some fields; all but those that recipes/masked leaves; with names
# of code masked, too, but those of the JDKs; by recipes/masked; and by it with names of code masked, too, but those of
# java.util. Of each output, every JDK in /usr/lib/jvm (or those in the variable JDKS) must read all that it reads of a
# scrub with the same filter: `jfr summary`, with the same counts; `jfr print`; and `jfr view all-views`. `masks.py`
# compares what it shows of both. Their stacks must have the same counts.
#
# So must the stacks that async-profiler's converter finds, which `converted.py` compares: the variable CONVERTER, or
# Debian's, which needs a `java` on the PATH. This names those of JDK 17, 21 and 25 and the converter that aren't there,
# and passes over them. Prints a row for each output and reader, which says what the JDK reads of neither file, such as
# views, which JDK 17 hasn't; and then how many were wrong.
set -u
# shellcheck source=common.sh
. "$(dirname "$(readlink -f -- "$0")")/common.sh"
program=$(readlink -f -- "$1")
shift
converter=${CONVERTER-/usr/share/async-profiler/converter.jar}
cp -- "$program" "$work/jfr" && cp -r -- "$top/recipes" "$work/recipes" || exit 1

# Some fields of event types, which no constant has: masks.py looks for their texts.
fields='jdk.File*.path,jdk.Socket*.host,jdk.Socket*.address,jdk.Java*Throw.message,jdk.SystemProcess.commandLine,jdk.Initial*.value'

# The fields that recipes/masked leaves: with `code` only those that it leaves with --code, too.
except() { awk -F'\t' -v code="${1-}" '!/^#/ && !(code && $2 == "code") { print $1 }' "$top/recipes/unmasked" | paste -sd,; }

# Masks a file in a way, with a table, and scrubs it with the same filter.
mask() {
    local file=$1 how=$2 types filter=(--describe '*') words=(--strings '*')
    case $how in
        all) ;;
        fields) words=(--strings "$fields") ;;
        exceptions) words+=(--except "$(except)") ;;
        code) words+=(--except "$(except code)" --known "$work/names") ;;
        recipe | open)
            types=$(grep '^jdk.* masked' "$top/recipes/types" | cut -d' ' -f1 | paste -sd,)
            filter=(--include-events "$types" --describe "$types")
            ;;
    esac
    rm -f "$work"/{plain.jfr,masked.jfr,table}
    "$program" scrub "${filter[@]}" "$file" "$work/plain.jfr" || return
    if [ "$how" = recipe ]; then
        "$work/recipes/masked" --table "$work/table" "$file" "$work/masked.jfr" 2>"$work/said"
    elif [ "$how" = open ]; then
        "$work/recipes/masked" --code --known /dev/null --open 'java.util.*' --table "$work/table" \
            "$file" "$work/masked.jfr" 2>"$work/said"
    else
        "$program" mask "${filter[@]}" "${words[@]}" --table "$work/table" "$file" "$work/masked.jfr" 2>"$work/said"
    fi || { cat "$work/said"; false; }
}

# The events that a JDK counts in a recording, without their bytes, which differ.
events() { "$1/bin/jfr" summary "$2" | sed -E 's/^( .* [0-9]+) +[0-9]+ *$/\1/' | sort; }

# The counts of the stacks in a recording.
counts() { "$program" stacks "$1" | sed 's/.* //' | sort -n; }

# What a JDK says of the output when it doesn't read it, but the scrub. The file `unread` has what reads neither.
read_by() {
    local jfr=$1/bin/jfr command
    : >"$work/unread"
    # shellcheck disable=SC2086 # `view` has two words
    for command in summary print 'view all-views'; do
        if "$jfr" $command "$work/masked.jfr" >/dev/null 2>"$work/said"; then
            :
        elif "$jfr" $command "$work/plain.jfr" >/dev/null 2>&1; then
            echo "jfr $command: $(head -n 1 "$work/said")"
        else
            echo "$command" >>"$work/unread"
        fi
    done
    cmp -s <(events "$1" "$work/plain.jfr") <(events "$1" "$work/masked.jfr") || echo "jfr summary: other events"
}

# The version of a JDK.
version() { sed -n 's/^JAVA_VERSION="\([0-9]*\).*/\1/p' "$1/release"; }

# pass_over TEXT: says what isn't there.
pass_over() {
    echo "$1 isn't there: passed over"
    skipped=$((${skipped-0} + 1))
}

if [ -n "${JDKS-}" ]; then
    read -ra jdks <<<"$JDKS"
else
    mapfile -t jdks < <(readlink -f /usr/lib/jvm/*/bin/jfr | sort -u | xargs -r -n1 dirname | xargs -r -n1 dirname)
fi
for version in 17 21 25; do
    for jdk in "${jdks[@]}"; do version "$jdk"; done | grep -qxF "$version" || pass_over "JDK $version"
done
[ -r "$converter" ] && command -v java >/dev/null || pass_over "async-profiler's converter, or java,"
for jdk in "${jdks[@]}"; do
    rm -f "$work/some"
    "$work/recipes/names" "$jdk" "$work/some" || { fail "$jdk: no names"; continue; }
    for name in java/util/HashMap\$Node java.util.HashMap\$Node '[Ljava/util/HashMap$Node;' putVal '()Ljava/lang/String;' java.base; do
        grep -qxF -- "$name" "$work/some" || fail "$jdk: the names haven't $name"
    done
    cat "$work/some" >>"$work/names"
done
echo "| file | masked | bytes | pseudonyms | read by | compared |"
echo "|---|---|---:|---:|---|---|"
for file; do
    for how in all fields exceptions code recipe open; do
        name="$(basename "$file") $how"
        cases=$((cases + 1))
        mask "$file" "$how" || { fail "$name: it isn't masked"; continue; }
        cmp -s <(counts "$work/plain.jfr") <(counts "$work/masked.jfr") || fail "$name: the stacks have other counts"
        row="$(basename "$file") | $how | $(stat -c %s "$work/masked.jfr") | $(wc -l <"$work/table")"
        masked_fields=()
        [ "$how" != fields ] || masked_fields=("$fields")
        for jdk in "${jdks[@]}"; do
            cases=$((cases + 1))
            said=$(read_by "$jdk")
            [ -z "$said" ] || fail "$name: $jdk: $said"
            said=$("$here/masks.py" "$jdk/bin/jfr" "$work"/{plain.jfr,masked.jfr,table} "${masked_fields[@]}" 2>&1) \
                || fail "$name: $jdk: $said"
            unread=$(paste -sd, "$work/unread")
            echo "| $row | $(basename "$jdk") | $(tail -n 1 <<<"$said")${unread:+; neither is read by $unread} |"
        done
        if [ -r "$converter" ] && command -v java >/dev/null; then
            cases=$((cases + 1))
            said=$("$here/converted.py" "$converter" "$work"/{plain.jfr,masked.jfr,table} 2>&1) || fail "$name: the converter: $said"
            echo "| $row | the converter | $(tail -n 1 <<<"$said") |"
        fi
    done
done
summary
