# shellcheck shell=bash
# Completion of jfr and kijorafe for bash, 4.3 or later: `. completions/jfr.bash`, or a copy named `jfr` in the folder
# ~/.local/share/bash-completion/completions. It serves `jfr` under any path, so `./jfr`, and
# the JDK's `jfr`, too, which has other options.

_jfr_lists='--include-events --exclude-events --include-categories --exclude-categories'
_jfr_lists+=' --include-threads --exclude-threads --describe'

_jfr() {
    local current=${COMP_WORDS[COMP_CWORD]} options='' names=() word
    local window='--from --to --always'
    local filter="$_jfr_lists $window"
    COMPREPLY=()

    if ((COMP_CWORD == 1)); then
        compopt +o default 2>/dev/null
        mapfile -t COMPREPLY < <(compgen -W 'print summary metadata scrub disassemble assemble sample receipt verify build stacks mask' -- "$current")
        return
    fi

    # The options, and what each name is: a file, a folder, or nothing that can be offered.
    case ${COMP_WORDS[1]} in
        print)
            options="--events --categories $window --depth --json"
            names=(file)
            ;;
        stacks)
            options="--events --categories $window"
            names=(file)
            ;;
        summary | metadata)
            options='--json'
            names=(file)
            ;;
        scrub)
            options="$filter --renumber"
            names=(file file)
            ;;
        mask)
            options="$filter --strings --except --known --table"
            names=(file file)
            ;;
        receipt)
            options=$filter
            names=(file file)
            ;;
        verify)
            options=$filter
            names=(file file file)
            ;;
        disassemble)
            options='--output --max-chunks --max-size'
            names=(file)
            ;;
        assemble) names=(folder file) ;;
        build) names=(file file) ;;
        sample) ;;
        # A command of the JDK's: names of files, by default.
        *) return ;;
    esac

    # The words before this one: options, each with its value, and then names, after which no option is taken.
    local at=2 given=0 option=''
    while ((at < COMP_CWORD)); do
        word=${COMP_WORDS[at]}
        if ((given == 0)) && [[ " $options " == *" $word "* ]]; then
            options=" $options "
            options=${options/ $word / }
            if [[ $word != --json ]]; then
                ((++at < COMP_CWORD)) || option=$word
            fi
        else
            ((++given))
        fi
        ((++at))
    done

    if ((given == 0)) && [[ -z $option && $current == -* ]]; then
        compopt +o default 2>/dev/null
        mapfile -t COMPREPLY < <(compgen -W "$options" -- "$current")
        return
    fi

    local kind=${names[given]-}
    case $option in
        '') ;;
        --output) kind=folder ;;
        --depth) kind=depth ;;
        --renumber) kind=answer ;;
        --known | --table) kind='file' ;;
        *) kind='' ;;
    esac
    # No name begins with -.
    [[ $current != -* ]] || kind=''
    case $kind in
        depth)
            compopt +o default 2>/dev/null
            mapfile -t COMPREPLY < <(compgen -W '0 1 2 3 4 5 6 7 8' -- "$current")
            return
            ;;
        answer)
            compopt +o default 2>/dev/null
            mapfile -t COMPREPLY < <(compgen -W 'yes no' -- "$current")
            return
            ;;
        '')
            compopt +o default 2>/dev/null
            return
            ;;
    esac
    compopt -o filenames 2>/dev/null
    if [[ $kind == folder ]]; then
        mapfile -t COMPREPLY < <(compgen -d -- "$current")
    else
        mapfile -t COMPREPLY < <(compgen -f -- "$current")
    fi
    if ((given == 0)) && [[ -z $option && -z $current ]]; then
        mapfile -t -O "${#COMPREPLY[@]}" COMPREPLY < <(compgen -W "$options" -- "$current")
    fi
}

complete -o default -F _jfr jfr

# The recipes and their options; all other words are names of files, which bash completes by default.
_kijorafe() {
    local current=${COMP_WORDS[COMP_CWORD]} recipe='' word words
    local scrubs='--trust --from --to --last --help'
    COMPREPLY=()
    for word in "${COMP_WORDS[@]:1:COMP_CWORD-1}"; do
        if [[ $word != -* ]]; then
            recipe=$word
            break
        fi
    done
    case $recipe in
        '') words='vendor strict tenant masked many check left strangers threads explain flame jdk names --help' ;;
        vendor | strict) words=$scrubs ;;
        tenant) words="$scrubs --addresses" ;;
        masked) words="$scrubs --code --known --open --table --report" ;;
        many) words="$scrubs --addresses --code --known --open --resume --jobs --sshloginfile vendor strict tenant masked" ;;
        check) words="$scrubs --recipe --code --known --open $_jfr_lists --always --renumber" ;;
        left) words='--exact --help' ;;
        threads) words='--addresses --help' ;;
        flame) words='--events --categories --help' ;;
        jdk) words='--ids --help' ;;
        *) words=--help ;;
    esac
    [[ ${COMP_WORDS[COMP_CWORD - 1]} != --recipe ]] || words='vendor strict tenant masked'
    if [[ -z $recipe || $recipe == many || $words == 'vendor strict tenant masked' || $current == -* ]]; then
        mapfile -t COMPREPLY < <(compgen -W "$words" -- "$current")
    fi
}

complete -o default -F _kijorafe kijorafe
