#!/usr/bin/env bash
# Tries the recipes with bad files and names: trials/recipes.sh PROGRAM FILE
#
# FILE is a recording of JDK 17 or later. The recipes run in a copy beside PROGRAM. Each case has a status, a text that
# the error stream has, and conditions on the files afterwards. Prints a line for each case that is wrong, and at the
# end how many there were; the status is 0 if none was wrong. The full disk is a file system of its own, which only
# root can make: otherwise that case is skipped.
set -u
# shellcheck source=common.sh
. "$(dirname "$(readlink -f -- "$0")")/common.sh"
program=$(readlink -f -- "$1")
file=$(readlink -f -- "$2")
cd "$work" || exit 1
mkdir send
cp -- "$program" send/jfr
cp -r -- "$top/recipes" send/
r=send/recipes

# run WORD..: a recipe, with its words.
run() {
    "$r/$1" "${@:2}" >said.out 2>said.err
    status=$?
}

# check NAME STATUS TEXT: of the last run; the conditions are commands on standard input.
check() {
    cases=$((cases + 1))
    if [ "$status" != "$2" ]; then
        fail "$1: status $status, expected $2: $(head -n 3 said.err)"
    elif [ -n "$3" ] && ! grep -qF -- "$3" said.err; then
        fail "$1: the error stream hasn't '$3': $(head -n 3 said.err)"
    elif ! bash -c "set -e; $(cat)"; then
        fail "$1: the files afterwards are wrong"
    fi
}

for recipe in vendor strict masked 'tenant --addresses' "tenant nobody-*,?"; do
    read -ra words <<<"$recipe"
    rm -f o.jfr
    run "${words[@]}" "$file" o.jfr
    check "$recipe" 0 'events are left' <<<'test -s o.jfr; test ! -s said.out'
    run "${words[@]}" "$file" o.jfr
    check "$recipe, an output that exists" 4 'exists already' <<<'test -s o.jfr'
    run "${words[@]}" "$file" none/o.jfr
    check "$recipe, no folder" 4 "folder none doesn't exist" <<<'test ! -e none'
    run "${words[@]}" none.jfr new.jfr
    check "$recipe, no input" 3 "none.jfr doesn't exist" <<<'test ! -e new.jfr'
    run "${words[@]}" . new.jfr
    check "$recipe, a folder" 3 'is a folder' <<<'test ! -e new.jfr'
    run "${words[@]}" -- "$file"
    check "$recipe, too few words after --" 1 'usage: kijorafe' <<<':'
    run "${words[@]}" -- "$file" -o.jfr
    check "$recipe, a name with -" 1 'write ./-o.jfr' <<<'test ! -e ./-o.jfr'
    run "${words[@]}" "$file"
    check "$recipe, too few words" 1 'usage: kijorafe' <<<':'
    head -c 5000 "$file" >cut.jfr
    if [ "$recipe" = 'tenant --addresses' ]; then
        run "${words[@]}" cut.jfr cut.out
        check "$recipe, a cut recording" 2 "can't be searched" <<<'test ! -e cut.out'
        continue
    fi
    run "${words[@]}" cut.jfr cut.out
    check "$recipe, a cut recording" 2 'is cut short' <<<'test ! -e cut.out; test ! -e .cut.out.part'
    mkfifo pipe
    cat "$file" >pipe &
    run "${words[@]}" pipe piped.jfr
    check "$recipe, a pipe" 0 'events are left' <<<'cmp piped.jfr o.jfr; rm pipe piped.jfr'
    gzip -c "$file" >in.gz
    run "${words[@]}" in.gz unpacked.jfr
    check "$recipe, a compressed recording" 0 'events are left' <<<'cmp unpacked.jfr o.jfr; rm unpacked.jfr'
done
run tenant '' "$file" new.jfr
check 'an empty pattern' 1 'a pattern is empty' <<<'test ! -e new.jfr'
run tenant 'a, b' "$file" new.jfr
check 'a blank after a comma' 1 'belongs to the pattern' <<<'test ! -e new.jfr'
run tenant 'nobody-*' "$file" new.jfr
check 'a pattern that matches nothing' 0 'matches no thread' <<<'test -s new.jfr; rm new.jfr'

# Masks.
run masked --table table --report report "$file" masked.jfr
check 'a table' 0 'texts have pseudonyms' <<<'test "$(stat -c %a table report)" = "600
600"; grep -q "^masked-1 \"" table; grep -q "^masked" report'
run masked --table table "$file" new.jfr
check 'a table that exists' 4 'table exists already' <<<'test ! -e new.jfr'
run masked --table none/table "$file" new.jfr
check 'a table, no folder' 4 "folder none doesn't exist" <<<'test ! -e new.jfr; test ! -e .new.jfr.part'
run masked --table ./new.jfr "$file" new.jfr
check 'a table with the name of the output' 1 'are to be different' <<<'test ! -e new.jfr'
run masked --known none "$file" new.jfr
check 'no known texts' 3 'reading none failed' <<<'test ! -e new.jfr'
echo main >known
run masked --known known --table known.table "$file" new.jfr
check 'known texts' 0 'texts have pseudonyms' <<<'grep -q " .main.$" table; ! grep -q " .main.$" known.table; rm new.jfr'
run masked --code --open 'java.util.*,none.*' --table open.table "$file" new.jfr
check 'names that stay' 0 "the pattern 'none.*' matches no class" \
    <<<'! grep -qE " .java[./]util[./]HashMap.$" open.table; grep -qE " .java[./]lang[./]" open.table; rm new.jfr'
run masked --open 'java.util.*' "$file" new.jfr
check 'names that stay anyway' 1 'for use with --code' <<<'test ! -e new.jfr'
run names none new
check 'names, no JDK' 3 "isn't the folder of a JDK" <<<'test ! -e new'

# Chunks of which the JDK's reader would miss events: an earlier one has no event of a type, so a scrub without
# --describe has no description of it there.
types='class 4 float
class 5 long
event 8 jdk.CPULoad
field startTime 5 -
field jvmUser 4 -
field jvmSystem 4 -
field machineTotal 4 -
event 9 jdk.ThreadContextSwitchRate
field startTime 5 -
field switchRate 4 -'
load='record 8 1 0x00000000 0x00000000 0x00000000'
printf '%s\n' "$types" "$load" >first
printf '%s\n' "$types" "$load" 'record 9 1 0x00000000' >second
for text in first second; do ./send/jfr build "$text" "$text.jfr" || exit 1; done
cat first.jfr second.jfr >missed.jfr
cat second.jfr first.jfr >read.jfr
./send/jfr scrub missed.jfr missed.out || exit 1
for text in missed read; do
    run vendor "$text.jfr" "$text.vendor"
    check "descriptions, $text" 0 'events are left' \
        <<<"test \"\$(./send/jfr metadata $text.vendor | grep -c '^jdk.* super jdk.jfr.Event')\" = 4"
done
run jdk missed.vendor copy.vendor
check 'jdk, an output of a recipe' 0 'id of 0 chunks' <<<'cmp missed.vendor copy.vendor'
run jdk missed.out copy.out
check 'jdk' 0 'changed the metadata id of 1 chunks' <<<'test "$(cmp -l missed.out copy.out | wc -l)" = 1'
run jdk copy.out again.out
check 'jdk, a copy' 0 'id of 0 chunks' <<<'cmp copy.out again.out'
run jdk copy.out again.out
check 'jdk, an output that exists' 4 'exists already' <<<'cmp copy.out again.out'
run jdk none.jfr new.jfr
check 'jdk, no input' 3 "doesn't exist" <<<'test ! -e new.jfr'
run jdk first new.jfr
check 'jdk, no recording' 2 "isn't a recording" <<<'test ! -e new.jfr'
run jdk read.jfr none/new.jfr
check 'jdk, no folder' 4 "doesn't exist" <<<'test ! -e none'
run jdk --x new.jfr
check 'jdk, a name with -' 1 'usage' <<<'test ! -e new.jfr'

# Checks.
run vendor "$file" scrubbed.jfr
./send/jfr receipt "$file" other.receipt || exit 1
run check --recipe vendor "$file" scrubbed.jfr
check 'check' 0 '' <<<'grep -q "^the same as a scrub, byte for byte" said.out'
run check --recipe strict "$file" scrubbed.jfr
check 'check, another recipe' 7 '' <<<'grep -q "^chunk 1: EventsDiffer: " said.out'
run check --recipe vendor "$file" scrubbed.jfr other.receipt
check 'check, other receipts' 7 '' <<<'grep -q "^chunk 1: ReceiptBad: " said.out; grep -q "^the same as" said.out'
run check --recipe vendor cut.jfr scrubbed.jfr
check 'check, a cut original' 2 'is cut short' <<<':'
run check --recipe vendor "$file" cut.jfr
check 'check, a cut output' 7 '' <<<'grep -q ShortChunk said.out'
run check --recipe vendor "$file" none.jfr
check 'check, no output' 3 "none.jfr doesn't exist" <<<':'
rm scrubbed.jfr
run masked --code --open 'java.util.*' --last 1h "$file" coded.jfr
run check --recipe masked --code --open 'java.util.*' --last 1h "$file" coded.jfr
check 'check, a mask' 0 'names stay, of what --open matches' <<<'grep -q "^the same as a mask, byte for byte" said.out'
run check --recipe masked --code --open 'java.*' "$file" coded.jfr
check 'check, another mask' 7 '' <<<'grep -q "^a mask also differs if" said.out; ! grep -q verified said.out'
run check --recipe masked --code "$file" coded.jfr other.receipt
check 'check, receipts of a mask' 1 'no receipt checks' <<<':'
rm coded.jfr

# Windows of time.
run vendor "$file" all.jfr
run vendor --last 1h "$file" last.jfr
check 'a window with all events' 0 'the window is --from' <<<'cmp last.jfr all.jfr'
run vendor --to 1970-01-01T00:00:00Z "$file" none.jfr
check 'a window before the recording' 0 'WARNING: the recording is from' <<<'test -s none.jfr; rm none.jfr'
run strict --from 2000-01-01T00:00:00Z --to 1999-12-31T23:59:59.999999999Z "$file" new.jfr
check 'a window that ends before it begins' 1 'is after --to' <<<'test ! -e new.jfr; test ! -e .new.jfr.part'
run tenant 'nobody-*' --from 25:00 "$file" new.jfr
check 'no time' 1 "25:00 isn't a time" <<<'test ! -e new.jfr'
run strict --last 10m --to 10:15 "$file" new.jfr
check 'two windows' 1 "isn't for use with" <<<'test ! -e new.jfr'

# Names.
cp -- "$file" $' two\nlines "ä".jfr'
run vendor $' two\nlines "ä".jfr' $'of \n.jfr'
check 'blanks and newlines' 0 'events are left' <<<$'test -s "of \n.jfr"'
cp -- "$file" ./-d.jfr
run vendor ./-d.jfr ./-o.jfr
check 'a leading -' 0 'events are left' <<<'test -s ./-o.jfr'
echo xqwordqx >words
run left $'of \n.jfr' words
check 'left, a newline' 0 'of 1 words found' <<<'test ! -s said.out'
run strangers ./-o.jfr
check 'strangers, no stranger' 0 '' <<<'test ! -s said.out'
run threads ./-o.jfr
check 'threads, a leading -' 0 '' <<<'test -s said.out'
for recipe in left strangers threads; do
    run "$recipe" none.jfr
    check "$recipe, no input" 2 '' <<<':'
    run "$recipe" -d.jfr
    check "$recipe, a name with -" 2 'usage' <<<':'
    run "$recipe" words
    check "$recipe, no recording" 2 '' <<<':'
done
: >empty
run left o.jfr empty
check 'left, no words' 2 "isn't a text with words" <<<':'
printf '\xff\xfew\0' >utf16
run left o.jfr utf16
check 'left, words in UTF-16' 2 "can't decode" <<<':'

# Folders.
mkdir -p in/a in/b in/-c in/folder.jfr
cp -- "$file" in/a/x.jfr
cp -- "$file" in/b/x.jfr
cp -- "$file" $'in/-c/-two\nlines {} $x.jfr'
cp cut.jfr in/cut.jfr
ln -s none in/link.jfr
run many vendor in out
check 'many, one that is refused' 2 'cut.jfr: status 2' <<<'test -s out/a/x.jfr; cmp out/a/x.jfr out/b/x.jfr; test ! -e out/cut.jfr; test ! -e out/.many; grep -q "^2.*cut.jfr" out.log'
run many vendor in out
check 'many, a second time' 4 'add --resume' <<<':'
run many --resume strict in out
check 'many, another recipe' 4 'of another recipe' <<<':'
rm in/cut.jfr
cp -- "$file" in/new.jfr
run many --resume vendor in out
check 'many, resumed' 0 '1 of 4 recordings were scrubbed, 3 before' <<<'test -s out/new.jfr'
run many vendor none out2
check 'many, no folder' 3 "doesn't exist" <<<'test ! -e out2'
run many vendor in in/out
check 'many, in the folder' 4 'must not be IN_FOLDER or in it' <<<':'
run many vendor in none/out
check 'many, no folder for outputs' 4 "can't be made" <<<'test ! -e none'
mkdir nothing
run many vendor nothing out3
check 'many, no recording' 2 'has no file' <<<':'
run many many in out4
check 'many, no recipe' 1 'usage' <<<'test ! -e out4'
mkdir bin
printf '#!/bin/sh\nexit 127\n' >bin/parallel
chmod +x bin/parallel
PATH=$work/bin:$PATH run many --jobs 2 strict in out5
check 'many, without parallel' 0 '4 of 4 recordings' <<<'cmp out5/a/x.jfr out5/b/x.jfr; test -s out5/new.jfr'

# Flame graphs.
printf 'main;a 1\nmain;b<"&\\u003b 2\n' >folded
run flame folded f.svg
check 'flame' 0 '' <<<'python3 -c "import xml.dom.minidom as d; d.parse(\"f.svg\")"'
run flame folded f.svg
check 'flame, an output that exists' 4 'exists already' <<<':'
run flame none g.svg
check 'flame, no input' 3 "doesn't exist" <<<'test ! -e g.svg'
run flame folded none/g.svg
check 'flame, no folder' 4 "doesn't exist" <<<':'
run flame words g.svg
check 'flame, no stacks' 2 "isn't a folded stack" <<<'test ! -e g.svg'

# A full disk.
mkdir disk
if mount -t tmpfs -o size=64k tmpfs disk 2>/dev/null; then
    mounted=$work/disk
    run vendor "$file" disk/o.jfr
    check 'a full disk' 4 'writing disk/o.jfr failed' <<<'test -z "$(ls -A disk)"'
    run masked --table table2 "$file" disk/o.jfr
    check 'masked, a full disk' 4 'writing disk/o.jfr failed' <<<'test -z "$(ls -A disk)"; test ! -e table2'
    run many vendor in disk/out
    check 'many, a full disk' 2 'were refused' <<<"test -z \"\$(find disk/out -type f)\""
else
    echo 'skipped: a full disk'
fi
summary
