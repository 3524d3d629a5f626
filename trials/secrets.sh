#!/usr/bin/env bash
# Tries the recipes on recordings with planted strings: trials/secrets.sh [JDK..]
#
# With each JDK, by default those in /usr/lib/jvm, it starts Secrets.java with strings planted in its environment,
# properties, arguments, flags, paths, hosts, processes, names and events, and with every type of event on. Each
# recipe scrubs the recording. Then each string is looked for in the bytes, and in what the JDK's own
# `jfr print --json` prints. Prints a line for each recipe: how many strings are left, which of them the recipe says
# that it leaves, and which it says that it takes away; those make the status 1. So do a recipe that doesn't end
# with 0, a second scrub that gives other bytes, an output that the JDK doesn't print, a string that is left and that
# recipes/left doesn't find, a planted event type that recipes/strangers doesn't find, and an event type of the JDK that
# recipes/types doesn't have. Says what it skipped.
# shellcheck disable=SC2086 # lists of words are split
set -uf
# shellcheck source=common.sh
. "$(dirname "$(readlink -f -- "$0")")/common.sh"
recipes=$top/recipes

# The planted strings, by what the recipes say of them. All take away the first ones.
secret="
    xqenvironmentnameqx xqenvironmentvalueqx xqpropertynameqx xqpropertyvalueqx xqpropertypasswordqx
    xqargumentqx xqargumentpasswordqx xqclasspathqx xqoptionfileqx
    xqonerrorqx xqdumppathqx xqerrorfileqx xqflagchangedqx xqlogfileqx
    xqrecordingfileqx xqrecordingnameqx xqsettingsfileqx xqsettingvalueqx
    xqprocessargumentqx xqprocessfolderqx xqotherprocessqx
    xqagentfileqx xqagentoptionqx xqnativeoptionqx xqnativelibraryqx
    xqfilereadqx xqfilewriteqx xqfileforceqx xqheapdumpqx xqcodesourceqx
    xqhostqx 127.77.66.55 xqtlshostqx xqcertificatenameqx xqcertificateunitqx
    xqsecuritynameqx xqsecurityvalueqx xqfirstsecuritynameqx xqfirstsecurityvalueqx xqproviderqx xqalgorithmqx
    xqexceptionqx xqerrorqx xqfilterqx xqownvalueqx xqjdkvalueqx xqsamevalueqx
    xqbracket[2026]\$qx -xqdashqx xqstar*?qx xqcomma,qx"
# recipes/vendor, recipes/tenant and recipes/masked without --code leave names of code and of modules, with the folder
# that these come from.
code="xqclassqx xqmethodqx xqpackageqx xqloaderqx xqfinalizedqx xqmodulenameqx xqmoduleversionqx xqmodulefolderqx"
# recipes/vendor leaves names of threads; recipes/tenant those that it isn't given.
threads="xqthreadqx xqgroupqx"
addresses="127.66.55.44 xqtokenqx"
tenant="xqtenantqx"
# No recipe promises to remove what the metadata says. The descriptions of event types leave with their last event;
# those of annotations and settings stay.
metadata="
    xqeventnameqx xqjdknameqx xqfieldqx xqlabelqx xqdescriptionqx xqcategoryqx xqannotationqx xqsettingnameqx xqsettingclassqx"

# What the recording needs beside the program: keys, an agent, a module, a class by a loader of its own, a native library.
prepare() {
    local jdk=$1 to=$2 bin=$1/bin
    mkdir -p "$to/module/xqpackageqx" || return
    echo 'module xqmodulenameqx { exports xqpackageqx; }' >"$to/module/module-info.java"
    echo 'package xqpackageqx; public class InModule { public static void call() {} }' >"$to/module/xqpackageqx/InModule.java"
    echo 'public class xqfinalizedqx { protected void finalize() {} }' >"$to/xqfinalizedqx.java"
    echo 'xqfirstsecuritynameqx=xqfirstsecurityvalueqx' >"$to/xqoptionfileqx"
    echo 'Premain-Class: Agent' >"$to/manifest"
    cp "$jdk/lib/libprefs.so" "$to/xqnativelibraryqx.so" &&
        "$bin/javac" -nowarn -d "$to/xqclasspathqx" "$here/Secrets.java" &&
        "$bin/javac" --module-version 1-xqmoduleversionqx -d "$to/xqmodulefolderqx" "$to"/module/{module-info,xqpackageqx/InModule}.java &&
        "$bin/javac" -nowarn -d "$to/xqcodesourceqx" "$to/xqfinalizedqx.java" &&
        "$bin/jar" cfm "$to/xqagentfileqx.jar" "$to/manifest" -C "$to/xqclasspathqx" Agent.class &&
        "$bin/keytool" -genkeypair -alias key -keyalg RSA -dname CN=xqcertificatenameqx,OU=xqcertificateunitqx \
            -keystore "$to/keys.p12" -storepass xqstorepasswordqx &&
        "$bin/java" -cp "$to/xqclasspathqx" Secrets settings "$to/xqsettingsfileqx.jfc"
}

# Runs the program; the recording is xqrecordingfileqx.jfr.
record() {
    local jdk=$1 to=$2
    env -i PATH="$PATH" xqenvironmentnameqx=xqenvironmentvalueqx "$jdk/bin/java" \
        -Dxqpropertynameqx=xqpropertyvalueqx -Djavax.net.ssl.keyStorePassword=xqpropertypasswordqx \
        '-Dpattern=xqbracket[2026]$qx' -Ddash=-xqdashqx '-Dstar=xqstar*?qx' -Dcomma=xqcomma,qx \
        -Djava.security.properties="$to/xqoptionfileqx" \
        "-XX:OnOutOfMemoryError=true xqonerrorqx" -XX:HeapDumpPath="$to/xqdumppathqx" -XX:ErrorFile="$to/xqerrorfileqx" \
        -Xlog:gc:file="$to/xqlogfileqx" \
        -javaagent:"$to/xqagentfileqx.jar=xqagentoptionqx" \
        -agentlib:jdwp=transport=dt_socket,server=y,onthrow=none,launch=xqnativeoptionqx \
        "-XX:StartFlightRecording:name=xqrecordingnameqx,settings=$to/xqsettingsfileqx.jfc,filename=$to/xqrecordingfileqx.jfr" \
        --module-path "$to/xqmodulefolderqx" --add-modules xqmodulenameqx \
        -cp "$to/xqclasspathqx" Secrets run "$to" xqargumentqx --password=xqargumentpasswordqx
}

# The words that are in a recording's bytes or in what the JDK prints of it.
left_in() {
    local recording=$1 jdk=$2 word
    shift 2
    "$jdk/bin/jfr" print --json "$recording" >"$work/json" 2>"$work/said" || { cat "$work/said" >&2; return 1; }
    for word; do
        if grep -qaF -e "$word" "$recording" "$work/json"; then echo "$word"; fi
    done
}

# The words of the first list that are in the second one, and those that aren't.
both() { grep -xFf <(printf '%s\n' $2) <(printf '%s\n' $1) | tr '\n' ' '; }
only() { grep -vxFf <(printf '%s\n' $2) <(printf '%s\n' $1) | tr '\n' ' '; }

# The words that recipes/left finds in a recording.
found_by_left() {
    local recording=$1
    shift
    printf '%s\n' "$@" >"$work/words"
    "$recipes/left" "$recording" "$work/words" 2>"$work/said" >"$work/finds"
    [ $? -le 1 ] || { cat "$work/said" >&2; return 1; }
    sed -n 's/^line \([0-9]*\): .*/\1p/p' "$work/finds" | sort -u | sed -n -f - "$work/words"
}

# The event types that a JDK has and recipes/types doesn't.
unlisted() {
    "$1/bin/jfr" metadata | awk '
        /^@Name\("/ { name = $0; gsub(/^@Name\("|"\)$/, "", name) }
        / extends jdk\.jfr\.Event \{$/ { print name }' | grep -vxFf <(grep -v '^#' "$recipes/types" | cut -d' ' -f1)
}

# Scrubs by a recipe, looks at what is left of the planted words, and says it: try JDK RECORDING LEAVES RECIPE WORD..
try() {
    local jdk=$1 recording=$2 leaves=$3 out=$work/out.jfr again=$work/again.jfr found not_found
    shift 3
    rm -f "$out" "$again"
    "$recipes/$1" "${@:2}" "$recording" "$out" 2>"$work/said" || { fail "$1: status $?"; cat "$work/said"; return; }
    "$recipes/$1" "${@:2}" "$out" "$again" 2>/dev/null && cmp -s "$out" "$again" || fail "$1: a second scrub differs"
    found=$(left_in "$out" "$jdk" $planted) || { fail "$1: the JDK doesn't print the output"; return; }
    not_found=$(only "$found" "$(found_by_left "$out" $planted)")
    [ -z "$not_found" ] || fail "$1: recipes/left doesn't find $not_found"
    echo "$1: $(wc -w <<<"$found") of $(wc -w <<<"$planted") are left; it says that it leaves $(both "$found" "$leaves")"
    found=$(only "$found" "$leaves")
    [ -z "$found" ] || fail "$1: LEFT, though it says that it takes them away: $found"
}

[ $# -gt 0 ] || mapfile -t jdks < <(set +f; readlink -f /usr/lib/jvm/*/bin/java | sort -u | xargs -r -n1 dirname | xargs -r -n1 dirname)
for jdk in "${@:-${jdks[@]}}"; do
    name=$(basename "$jdk")
    if [ ! -x "$jdk/bin/javac" ] || [ ! -x "$jdk/bin/jfr" ]; then
        echo "$name: skipped: it has no javac or no jfr"
        continue
    fi
    to=$work/$name
    if ! prepare "$jdk" "$to" >"$work/said" 2>&1 || ! record "$jdk" "$to" >"$work/said" 2>&1; then
        echo "$name: skipped: no recording was made:"
        tail -n 5 "$work/said"
        continue
    fi
    recording=$to/xqrecordingfileqx.jfr
    words="$secret $code $threads $addresses $tenant $metadata"
    planted=$(left_in "$recording" "$jdk" $words) || exit 1
    missing=$(only "$words" "$planted")
    strange=$("$recipes/strangers" "$recording")
    for type in 'bench\.xqeventnameqx' 'jdk\.GCxqjdknameqx' 'jdk\.CPULoad (two'; do
        grep -q "$type" <<<"$strange" || fail "$name: recipes/strangers doesn't find $type"
    done
    unlisted=$(unlisted "$jdk")
    [ -z "$unlisted" ] || fail "$name: types that recipes/types doesn't have: $unlisted"
    echo "$name: $(stat -c %s "$recording") bytes, $(wc -w <<<"$planted") strings planted${missing:+; not in its recordings: $missing}"
    try "$jdk" "$recording" "$code $threads $addresses $tenant $metadata" vendor
    try "$jdk" "$recording" "$metadata" strict
    try "$jdk" "$recording" "$code $metadata" masked
    try "$jdk" "$recording" "$metadata" masked --code
    try "$jdk" "$recording" "$code $threads $addresses $metadata" tenant 'xqtenantqx*'
    try "$jdk" "$recording" "$code $threads $tenant $metadata" tenant --addresses
done
[ -n "${planted-}" ] || echo "skipped: there is no JDK in /usr/lib/jvm that makes recordings"
[ "$wrong" = 0 ]
