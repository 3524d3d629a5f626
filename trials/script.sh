#!/usr/bin/env bash
# Tries the scripts jfr, dist/make and dist/packages with a made-up toolchain: trials/script.sh
#
# In a copy of the repository's files, `rt` is a script that writes a program which says its number. Prints a line for
# each case that is wrong, and at the end how many there were; the status is 0 if none was wrong.
set -u
# shellcheck source=common.sh
. "$(dirname "$(readlink -f -- "$0")")/common.sh"
mkdir -p "$work/copy/dist" "$work/bin"
cp -r -- "$top"/{jfr,kijorafe,install,crates.txt,README.md,CHANGELOG.md,SECURITY.md,docs,recipes,completions} \
    "$work/copy/" || exit 1
cp -- "$top"/dist/{make,packages,sources} "$work/copy/dist/" && echo name | xz >"$work/copy/dist/jdk-names-17.xz" || exit 1
(cd "$top" && find crates -path '*/src/*' -type f -print0 | xargs -0 cp --parents -t "$work/copy") || exit 1
cat >"$work/bin/rt" <<'END'
#!/bin/bash
[ "$1" = run ] || exit 0
sleep "${SLOW-0}"
[ -z "${FAIL-}" ] || exit 1
mkdir -p out
printf '#!/bin/bash\n# %s\necho "%s $*"\n' "${WHERE+$PWD}" "$NUMBER" >out/jfr
cat >>out/jfr <<'PROGRAM'
case ${1-wrong} in
    wrong) exit 1 ;;
    refused) echo "chunk 1 offset 64: Unfinished" >&2; exit 2 ;;
    doubted) echo "chunk 2: EventsDiffer" >&2; exit 7 ;;
    unread) echo "read fault" >&2; exit 3 ;;
    slow) exec 7<"$2"; head -c 100 <&7 >/dev/null; exec sh -c "sleep 2; echo end >&2" ;;
esac
PROGRAM
chmod +x out/jfr
END
chmod +x "$work/bin/rt"
cd "$work/copy" || exit 1
system=/usr/bin:/bin
unset JFR_BUILD

# check NAME STATUS TEXT COMMAND..: the command's status, and a text in what it writes to either stream.
check() {
    local name=$1 expected=$2 text=$3 said status
    shift 3
    cases=$((cases + 1))
    said=$("$@" 2>&1)
    status=$?
    if [ "$status" != "$expected" ] || [[ $said != *"$text"* ]]; then
        fail "$(printf '%s: status %s, expected %s and %q: %q' "$name" "$status" "$expected" "$text" "$said")"
    fi
}

without=(env PATH="$system")
with=(env PATH="$work/bin:$system")
check 'nothing built, no toolchain' 69 'names: rattle-kit' "${without[@]}" ./jfr summary x
check 'help before a build' 0 'jfr scrub [--include-events LIST]' "${without[@]}" ./jfr --help
check 'version before a build' 0 'jfr 1.' "${without[@]}" ./jfr --version
check 'the first build' 0 'one summary x' "${with[@]}" NUMBER=one ./jfr summary x
check 'a run' 0 'one summary x' "${without[@]}" ./jfr summary x
check 'wrong words' 1 'see: ./jfr help' "${without[@]}" ./jfr wrong
check 'a refusal' 2 $'offset 64: Unfinished\nUnfinished: the recording is still being written' "${without[@]}" ./jfr refused
check 'a doubt' 7 $'2: EventsDiffer\nEventsDiffer: the output' "${without[@]}" ./jfr doubted
check 'another failure' 3 'read fault' "${without[@]}" ./jfr unread
check 'no output stream' 2 'Unfinished: ' "${without[@]}" bash -c './jfr refused >&-'
check 'no error stream' 2 'one refused' "${without[@]}" bash -c './jfr refused 2>&-'
head -c 200 README.md >input
on_terminal=("${without[@]}" script -qec)
check 'progress' 0 '50 % of 200 bytes read' "${on_terminal[@]}" './jfr slow input >/dev/null' /dev/null
check 'progress, erased' 0 $'\e[Kend' "${on_terminal[@]}" './jfr slow input >/dev/null' /dev/null
check 'no progress after output' 0 $'one slow input\r\nend' "${on_terminal[@]}" './jfr slow input' /dev/null
rm input
find crates -name '*.rt' -exec touch {} +
check 'sources with other times' 0 'one summary x' "${with[@]}" NUMBER=two ./jfr summary x
cp -r . ../second
check 'a copy' 0 'one summary x' "${with[@]}" NUMBER=two ../second/jfr summary x
echo '// changed' >>crates/jfr_base/src/lib.rt
check 'other sources, no toolchain' 0 'built of other sources' "${without[@]}" ./jfr summary x
check 'other sources, JFR_BUILD=0' 0 'one summary x' "${with[@]}" NUMBER=two JFR_BUILD=0 ./jfr summary x
check 'a build that fails' 70 'the program was not built' "${with[@]}" FAIL=1 ./jfr summary x
check 'after it' 0 'one summary x' "${with[@]}" JFR_BUILD=0 ./jfr summary x
check 'a build that is interrupted' 130 'interrupted' "${with[@]}" SLOW=9 NUMBER=two timeout --preserve-status -s INT 3 ./jfr summary x
check 'after it' 0 'one summary x' "${without[@]}" ./jfr summary x
check 'a build that is killed' 137 '' "${with[@]}" SLOW=9 NUMBER=two timeout --preserve-status -s KILL 3 ./jfr summary x
check 'after it' 0 'one summary x' "${without[@]}" ./jfr summary x
check 'the second build' 0 'three summary x' "${with[@]}" NUMBER=three ./jfr summary x
check 'the next run' 0 'three summary x' "${with[@]}" NUMBER=four ./jfr summary x

check 'a program that names its folder' 1 'different programs' "${with[@]}" NUMBER=one WHERE=1 dist/make
check 'packing it without a second build' 0 'dist/jfr-1.' "${with[@]}" NUMBER=one WHERE=1 dist/make --once
rm -rf crates/jfr/out
check 'packing' 0 'dist/jfr-1.' "${with[@]}" NUMBER=one dist/make
check 'its check' 0 '' "${without[@]}" dist/make --check
packages=(dist/kijorafe-*.tar.xz dist/kijorafe_*.deb)
cp -- "${packages[@]}" "$work/"
check 'the packages again' 0 '' "${without[@]}" dist/make --packages
for package in "${packages[@]}"; do
    check 'they are the same' 0 '' cmp "$package" "$work/${package#dist/}"
done
cp dist/jdk-names-17.xz "$work/"
echo other | xz >dist/jdk-names-17.xz
check 'other names of JDKs' 1 "names of JDKs aren't those of SHA256SUMS" "${without[@]}" dist/make --check
cp "$work/jdk-names-17.xz" dist/
mv dist/SHA256SUMS "$work/"
sed 's/jdk-names-17/jdk-names-11/' "$work/SHA256SUMS" >dist/SHA256SUMS
mv dist/jdk-names-17.xz dist/jdk-names-11.xz
check 'other names than in the packages' 1 "aren't those of SHA256SUMS: dist/make --packages" "${without[@]}" dist/make --check
mv dist/jdk-names-11.xz dist/jdk-names-17.xz
mv "$work/SHA256SUMS" dist/
check 'the names again' 0 '' "${without[@]}" dist/make --check
cp README.md "$work/"
echo more >>README.md
check 'another document' 0 'were made of other' "${without[@]}" dist/make --check
check 'the packages with it' 0 '' "${without[@]}" dist/make --packages
check 'their check' 0 '' "${without[@]}" dist/make --check
if [ -e "${packages[1]}" ]; then
    cp -- "$work/${packages[1]#dist/}" dist/
    check 'one package with it' 1 'have other files' "${without[@]}" dist/make --check
fi
echo more >"${packages[0]}"
check 'a package that is damaged' 1 "isn't whole" "${without[@]}" dist/make --check
cp "$work/README.md" .
check 'the packages once more' 0 '' "${without[@]}" dist/make --packages
check 'its sums' 0 '' sha256sum --quiet --strict -c dist/SHA256SUMS
rm -rf crates/jfr/out
check 'unpacking' 0 'one summary x' "${without[@]}" ./jfr summary x
check 'the next run' 0 'one summary x' "${with[@]}" NUMBER=two ./jfr summary x
check 'a build that is asked for, no toolchain' 69 'names: rattle-kit' "${without[@]}" JFR_BUILD=1 ./jfr summary x
check 'a build that is asked for' 0 'two summary x' "${with[@]}" NUMBER=two JFR_BUILD=1 ./jfr summary x
check 'the next one' 0 'two summary x' "${with[@]}" NUMBER=three JFR_BUILD=1 ./jfr summary x
check 'a program that differs' 1 'differs from the one in dist/jfr-1.' "${without[@]}" dist/make --check
sed -i 's/^Kit line: ./&next-/' README.md
check 'another toolchain' 0 'was made of other sources' "${without[@]}" dist/make --check
sed -i 's/next-//' README.md
cp crates/jfr_base/src/lib.rt "$work/lib.rt"
echo '// changed' >>crates/jfr_base/src/lib.rt
check 'other sources' 0 'three summary x' "${with[@]}" NUMBER=three ./jfr summary x
check 'their check' 0 'was made of other sources' "${without[@]}" dist/make --check
cp "$work/lib.rt" crates/jfr_base/src/lib.rt
check 'the sources of dist again, no toolchain' 0 'one summary x' "${without[@]}" ./jfr summary x
rm -rf crates/jfr/out
: >crates/jfr_base/src/more.rt
check 'one more source, no toolchain' 69 'names: rattle-kit' "${without[@]}" ./jfr summary x
rm crates/jfr_base/src/more.rt
ln -sf /bin/true "$work/bin/xz"
check 'an archive that gives something else' 0 'two summary x' "${with[@]}" NUMBER=two ./jfr summary x
rm -rf crates/jfr/out
rm "$work/bin/rt"
check 'the same, no toolchain' 69 "can't be unpacked" "${with[@]}" ./jfr summary x
summary
