#!/usr/bin/env zsh
# Tries the completion of zsh in an interactive shell: trials/completions.zsh
#
# Types each line, presses the key TAB twice, and looks for a text in what the terminal shows then, or for nothing but
# the line. Prints a line for each case that is wrong, and at the end how many there were; the status is 0 if none was
# wrong.
zmodload zsh/zpty
completions=$(dirname "$(dirname "$(readlink -f -- "$0")")")/completions
work=$(mktemp -d)
trap 'rm -rf -- "$work"' EXIT
mkdir $work/folder
touch $work/app.jfr
integer cases=0 wrong=0

# What the terminal shows, after a while.
shown() {
    local piece
    REPLY=
    sleep $1
    while zpty -r -t shell piece; do REPLY+=$piece; done
    REPLY=$(print -r -- "$REPLY" | sed 's/\x1b\[[0-9;?]*[a-zA-Z]//g' | tr -d '\r\a\b')
}

# check LINE TEXT: with an empty TEXT the line must stay as it is.
check() {
    cases+=1
    zpty -w -n shell "$1"$'\t\t'
    shown 0.4
    if { [[ -n $2 ]] && [[ $REPLY != *$2* ]] } || { [[ -z $2 ]] && [[ $REPLY != $1 ]] }; then
        wrong+=1
        print -r -- "$1: expected ${(q)2}: ${(q)REPLY}"
    fi
    zpty -w -n shell $'\x15'
    shown 0.1
}

zpty -b shell 'TERM=dumb COLUMNS=200 LINES=100 zsh -f -i'
zpty -w shell "PS1='% '; fpath=(${(q)completions} \$fpath); autoload -U compinit; compinit -u -D; compdef _jfr kjfr; cd ${(q)work}"
shown 2
check 'jfr ' 'stacks       -- show the call stacks'
check 'jfr scr' 'jfr scrub '
check './jfr su' './jfr summary '
check 'kjfr st' 'kjfr stacks '
check 'jfr print --' '--json        -- '
check 'jfr print --de' 'jfr print --depth '
check 'jfr print --depth ' '0  1  2  3  4  5  6  7  8'
check 'jfr print --json --d' 'jfr print --json --depth '
check 'jfr print --json --j' ''
check 'jfr print ap' 'jfr print app.jfr '
check 'jfr print app.jfr --' ''
check 'jfr summary --' 'jfr summary --json '
check 'jfr metadata app.jfr --' ''
check 'jfr scrub --include-events x --i' '--include-threads     -- '
check 'jfr scrub app.jfr ' 'folder/'
check 'jfr scrub --des' 'jfr scrub --describe '
check 'jfr scrub --ren' 'jfr scrub --renumber '
check 'jfr scrub --renumber ' 'no   yes'
check 'jfr mas' 'jfr mask '
check 'jfr mask --st' 'jfr mask --strings '
check 'jfr mask --strings x --exce' 'jfr mask --strings x --except '
check 'jfr mask --include-t' 'jfr mask --include-threads '
check 'jfr mask --known ap' 'jfr mask --known app.jfr '
check 'jfr mask --table ap' 'jfr mask --table app.jfr '
check 'jfr mask --ren' ''
check 'jfr mask app.jfr ' 'folder/'
check 'jfr rec' 'jfr receipt '
check 'jfr receipt --ren' ''
check 'jfr receipt --include-t' 'jfr receipt --include-threads '
check 'jfr verify app.jfr app.jfr ap' 'jfr verify app.jfr app.jfr app.jfr '
check 'jfr verify app.jfr --' ''
check 'jfr disassemble --output ' 'jfr disassemble --output folder/'
check 'jfr disassemble --max-c' 'jfr disassemble --max-chunks '
check 'jfr assemble ' 'jfr assemble folder/'
check 'jfr sample ' ''
check 'jfr bu' 'jfr build '
check 'jfr build app.jfr ap' 'jfr build app.jfr app.jfr '
check 'jfr build --' ''
check 'jfr stacks --c' 'jfr stacks --categories '
check 'jfr stacks --f' 'jfr stacks --from '
check 'jfr stacks --d' ''
check 'jfr view --' ''
zpty -d shell
print "$cases cases, $wrong wrong"
[[ $wrong == 0 ]]
