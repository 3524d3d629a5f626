#!/usr/bin/env bash
# Tries the program against the real outside: trials/outside.sh PROGRAM FILE
#
# FILE is a recording that the program accepts. Each case has a status that is expected, a line on the error stream,
# and conditions on the files afterwards. Cases that this machine can't set up (a file system of its own, another user) are
# said to be skipped. Prints a line for each case that is wrong, and at the end how many cases there were and how many
# were wrong; the status is 0 where none was.
set -u
# shellcheck source=common.sh
. "$(dirname "$(readlink -f -- "$0")")/common.sh"
program=$(readlink -f "$1")
file=$(readlink -f "$2")
skipped=0
cd "$work" || exit 1

fault_line() {
    case $1 in
        3) echo 'read fault' ;;
        4) echo 'write fault' ;;
        5) echo 'out of memory' ;;
    esac
}

# check NAME STATUS: the last run's status and line are the expected ones, and the conditions on standard input hold.
check() {
    local name=$1 expected=$2 line
    cases=$((cases + 1))
    line=$(fault_line "$expected")
    if [ "$status" != "$expected" ]; then
        fail "$name: status $status, expected $expected"
    elif [ -n "$line" ] && [ "$(cat err 2>/dev/null)" != "$line" ]; then
        fail "$name: said '$(cat err 2>/dev/null)', expected '$line'"
    elif ! bash -c "set -e; $(cat)"; then
        fail "$name: what was written is wrong"
    fi
}

run() {
    "$program" "$@" >out 2>err
    status=$?
}

skip() {
    skipped=$((skipped + 1))
    echo "skipped: $1"
}

export work
run scrub "$file" whole.jfr
check 'a plain scrub' 0 <<<'test -s whole.jfr; test ! -s out; test ! -s err'

# Names.
cp "$file" 'a recording, äöü ✓.jfr'
run scrub 'a recording, äöü ✓.jfr' 'an output, ☂.jfr'
check 'names with spaces and beyond ASCII' 0 <<<"cmp -s whole.jfr 'an output, ☂.jfr'"
ln -s "$file" link.jfr
run scrub link.jfr from_link.jfr
check 'a link as input' 0 <<<'cmp -s whole.jfr from_link.jfr'
ln -s nowhere dangling.jfr
run scrub dangling.jfr from_dangling.jfr
check 'a dangling link as input' 3 <<<'test ! -e from_dangling.jfr'
run scrub "$file" dangling.jfr
check 'a dangling link as output' 4 <<<'test -L dangling.jfr; test ! -e nowhere'
run scrub missing.jfr from_missing.jfr
check 'an input that is not there' 3 <<<'test ! -e from_missing.jfr'
run scrub "$file" nofolder/output.jfr
check 'an output in a folder that is not there' 4 <<<'test ! -e nofolder'

# What isn't a file, or is another one.
mkdir folder
run scrub folder from_folder.jfr
check 'a folder as input' 3 <<<'true'
run scrub "$file" folder
check 'a folder as output' 4 <<<'test -d folder; test -z "$(ls folder)"'
run print folder
check 'a folder to print' 3 <<<'test ! -s out'
run assemble "$file" joined.jfr
check 'a file as the folder to join' 3 <<<'test ! -e joined.jfr'
cp "$file" same.jfr
run scrub same.jfr same.jfr
check 'one file as input and output' 4 <<<"cmp -s same.jfr '$file'"
echo there >there.jfr
run scrub "$file" there.jfr
check 'an output that is there' 4 <<<'test "$(cat there.jfr)" = there'
: >empty.jfr
run scrub empty.jfr from_empty.jfr
check 'an empty input' 2 <<<'test "$(cat err)" = "chunk 1 offset 0: NoChunk"'

# A pipe that hands out small pieces.
mkfifo pipe.jfr
dd if="$file" of=pipe.jfr bs=7 2>/dev/null &
run scrub pipe.jfr from_pipe.jfr
wait
check 'an input in pieces of seven bytes' 0 <<<'cmp -s whole.jfr from_pipe.jfr'

# Streams.
"$program" summary "$file" >/dev/full 2>err
status=$?
check 'a full output stream' 4 <<<'true'
"$program" summary "$file" >&- 2>err
status=$?
check 'a closed output stream' 4 <<<'true'
"$program" scrub missing.jfr other.jfr >out 2>/dev/full
status=$?
cases=$((cases + 1))
[ "$status" = 3 ] || fail "a full error stream: status $status, expected 3"
{ "$program" print --depth 0 "$file" 2>err; echo $? >piped; } | head -c 1 >/dev/null
status=$(cat piped)
if [ "$("$program" print --depth 0 "$file" | wc -c)" -gt 200000 ]; then
    check 'an output stream that nobody reads any more' 4 <<<'true'
fi

# No permission, as another user.
if [ "$(id -u)" = 0 ] && command -v setpriv >/dev/null && chmod 755 "$work" && [ -x "$program" ] &&
    setpriv --reuid=65534 --regid=65534 --clear-groups "$program" >/dev/null 2>&1; [ $? = 1 ]; then
    as_other() {
        setpriv --reuid=65534 --regid=65534 --clear-groups "$program" "$@" >out 2>err
        status=$?
    }
    cp "$file" locked.jfr
    chmod 000 locked.jfr
    as_other scrub locked.jfr other.jfr
    check 'an input without permission' 3 <<<'test ! -e other.jfr'
    cp "$file" open.jfr
    chmod 644 open.jfr
    as_other scrub open.jfr other.jfr
    check 'an output without permission' 4 <<<'test ! -e other.jfr'
else
    skip 'permissions (no other user to be)'
fi

# A full disk.
mkdir disk
if mount -t tmpfs -o size=64k tmpfs disk 2>/dev/null; then
    mounted=$work/disk
    run scrub "$file" disk/output.jfr
    if [ "$(stat -c %s whole.jfr)" -gt 65536 ]; then
        check 'a full disk' 4 <<<'cmp -s -n "$(stat -c %s disk/output.jfr)" whole.jfr disk/output.jfr'
    else
        check 'a disk that is large enough' 0 <<<'cmp -s whole.jfr disk/output.jfr'
    fi
    umount disk && mounted=
else
    skip 'a full disk (no file system can be mounted)'
fi

# A signal in mid-run: the output isn't finished, and a second run doesn't write over it.
{ head -c 1000 "$file"; sleep 30; } >pipe.jfr &
feeder=$!
"$program" scrub pipe.jfr halted.jfr >out 2>err &
runner=$!
for _ in 1 2 3 4 5 6 7 8 9 10; do
    [ -e halted.jfr ] && break
    sleep 0.2
done
kill -TERM "$runner" 2>/dev/null
wait "$runner" 2>/dev/null
status=$?
pkill -P "$feeder" 2>/dev/null
kill "$feeder" 2>/dev/null
wait "$feeder" 2>/dev/null
cases=$((cases + 1))
[ "$status" = 143 ] && [ -e halted.jfr ] || fail "a signal in mid-run: status $status"
run scrub "$file" halted.jfr
check 'a second run after a signal' 4 <<<'test "$(stat -c %s halted.jfr)" -lt "$(stat -c %s whole.jfr)"'

# Parts.
run disassemble --output folder --max-chunks 1 "$file"
check 'parts in a folder' 0 <<<'ls folder/*_000001.jfr >/dev/null'
run disassemble --output folder --max-chunks 1 "$file"
check 'parts that are there' 4 <<<'true'
run assemble folder joined.jfr
check 'parts joined' 0 <<<"cmp -s joined.jfr '$file'"
touch "$(printf 'folder/\377.jfr')"
run assemble folder again.jfr
check 'a name that is not UTF-8' 3 <<<'test ! -e again.jfr'

summary
