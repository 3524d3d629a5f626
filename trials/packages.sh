#!/usr/bin/env bash
# Installs and removes the packages of dist/ in a clean system: trials/packages.sh [ROOT]
#
# ROOT is a folder with a Debian system that has python3; without it, debootstrap makes one, of the release bookworm,
# which takes a minute. Three ways are tried: the Debian package, the archive that is unpacked anywhere, and ./install.
# Each must run, and leave no file when it is removed. Prints a line for each case that is wrong, and at the end how many
# there were; the status is 0 if none was wrong. Only root can run this.
set -u
# shellcheck source=common.sh
. "$(dirname "$(readlink -f -- "$0")")/common.sh"
# shellcheck source=../dist/sources
. "$top/dist/sources"
root=${1-$work/root}
if [ $# = 0 ] && ! debootstrap --variant=minbase --include=python3 bookworm "$root" >"$work/said" 2>&1; then
    tail -n 5 "$work/said"
    exit 1
fi

# inside COMMAND..: runs it in the system, which has /proc until the command ends.
# shellcheck disable=SC2016 # sh expands these
inside() {
    env -i PATH=/usr/local/sbin:/usr/local/bin:/usr/sbin:/usr/bin:/sbin:/bin \
        unshare --mount sh -c 'mount -t proc proc "$0/proc" && exec chroot "$0" "$@"' "$root" "$@"
}

# check NAME COMMAND..: runs it in the system; it must end with 0.
check() {
    cases=$((cases + 1))
    inside "${@:2}" >"$work/said" 2>&1 || fail "$1: status $?: $(head -n 5 "$work/said")"
}

# The files of the system, without those in which it notes what was done.
files() { (cd "$root" && find . -path ./proc -prune -o -path ./var -prune -o -path ./tmp -prune -o ! -type d -print | sort); }

# Runs the recipes and the program of a folder.
check_runs() {
    check "$1: the program" "$2/kjfr" build /tmp/text "/tmp/$1.jfr"
    check "$1: a scrub" "$2/kijorafe" vendor "/tmp/$1.jfr" "/tmp/$1.out"
    check "$1: a check" "$2/kijorafe" check --recipe vendor "/tmp/$1.jfr" "/tmp/$1.out"
    check "$1: a mask" sh -c "$2/kijorafe masked --code /tmp/$1.jfr /tmp/$1.masked 2>&1 | grep -F 'names stay of JDK'"
    check "$1: the version" "$2/kijorafe" --version
    check "$1: the manual pages" sh -c "ls ${2%/bin}/share/man/man1/kijorafe.1* ${2%/bin}/share/man/man1/kjfr.1*"
}

# Compares the files with those that were there before.
check_removed() {
    cases=$((cases + 1))
    files | diff - "$work/before" >"$work/said" || fail "$1: other files: $(cat "$work/said")"
}

mkdir -p "$root/tmp/from/crates/jfr/out"
cp -- "$top/dist/$(tree_name).tar.xz" "$top/dist/$(deb_name)" "$root/tmp/" || exit 1
cp -r -- "$top"/{kijorafe,install,recipes,completions,docs,CHANGELOG.md} "$root/tmp/from/" || exit 1
mkdir "$root/tmp/from/dist" && cp -- "$top"/dist/jdk-names-*.xz "$root/tmp/from/dist/" || exit 1
tar -xJf "$top/dist/$(tree_name).tar.xz" -C "$root/tmp" || exit 1
printf '%s\n' 'class 5 long' 'event 20 jdk.SwapSpace' 'field startTime 5 -' 'field totalSize 5 -' 'field freeSize 5 -' \
    'record 20 1 2 3' >"$root/tmp/text"
files >"$work/before"

check 'the Debian package' dpkg -i "/tmp/$(deb_name)"
check_runs debian /usr/bin
check 'the Debian package, removed' dpkg --purge kijorafe
check_removed 'the Debian package'

mkdir "$root/opt/any"
cp -r -- "$root/tmp/$(tree_name)" "$root/opt/any/"
check_runs archive "/opt/any/$(tree_name)/bin"
rm -r "$root/opt/any"

check './install' /tmp/from/install --program "/tmp/$(tree_name)/lib/kijorafe/jfr"
check_runs install /usr/local/bin
check './install --remove' /tmp/from/install --remove
check_removed './install'
rm -rf "$root"/tmp/*
summary
