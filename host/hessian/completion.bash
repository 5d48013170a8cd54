# Completion of hessian in bash: commands, their options, the words that an option takes, and files.

# The candidates that begin with WORD.
_hessian_words() { # WORD CANDIDATE...
    mapfile -t COMPREPLY < <(compgen -W "${*:2}" -- "$1")
}

_hessian_files() { # WORD
    compopt -o filenames 2>/dev/null
    mapfile -t COMPREPLY < <(compgen -f -- "$1")
}

# What OPTION takes: words, a file, or something that cannot be named here. Status 1 where it takes nothing.
_hessian_argument() { # COMMAND OPTION WORD
    case $1$2 in
    copies--only)
        # a list: what stands before the last comma stays
        local before=
        [[ $3 == *,* ]] && before=${3%,*},
        compopt -o nospace 2>/dev/null
        _hessian_words "$3" "$before"{kept,copy,refused}
        ;;
    copies--include | copies--exclude | ledger--include | ledger--exclude | show--limit | show--elements) ;;
    holdings--include | holdings--exclude) ;;
    show--color) _hessian_words "$3" auto always never ;;
    shorten-o | shorten--output | holdings-o | holdings--output) _hessian_files "$3" ;;
    *) return 1 ;;
    esac
}

# The options of a verb of holdings, or of all where it is not there yet.
_hessian_holdings_options() { # WORD VERB
    case $2 in
    list | check) _hessian_words "$1" --json -h --help ;;
    extract) _hessian_words "$1" -o --output= -h --help ;;
    add) _hessian_words "$1" -q --summary --json --include= --exclude= -0 -h --help ;;
    *) _hessian_words "$1" -o --output= -q --summary --json --include= --exclude= -0 -h --help ;;
    esac
}

_hessian() {
    local commands='copies ledger show shorten rows holdings'
    local command=${COMP_WORDS[1]} word=${COMP_WORDS[COMP_CWORD]} before=${COMP_WORDS[COMP_CWORD - 1]} i
    COMPREPLY=()
    if [ "$COMP_CWORD" -eq 1 ]; then
        _hessian_words "$word" "$commands" help --help --version
        return 0
    fi
    # --option=WORD comes as three words
    if [ "$word" = = ]; then
        word=
    elif [ "$before" = = ]; then
        before=${COMP_WORDS[COMP_CWORD - 2]}
    fi
    for ((i = 2; i < COMP_CWORD; i++)); do
        [ "${COMP_WORDS[i]}" = -- ] && { _hessian_files "$word" && return 0; }
    done
    _hessian_argument "$command" "$before" "$word" && return 0
    case $command$word in
    copies-*)
        _hessian_words "$word" --only= --print0 --pairs -q --summary --json --include= --exclude= -0 --time \
            --thousandths -h --help
        ;;
    ledger-*)
        _hessian_words "$word" -q --summary --json --csv --include= --exclude= -0 --thousandths -h --help
        ;;
    show-*) _hessian_words "$word" --limit= --elements= --no-places --color --json --thousandths -h --help ;;
    shorten-*) _hessian_words "$word" -o --output= --thousandths -h --help ;;
    rows-*) _hessian_words "$word" --thousandths -h --help ;;
    holdings-*) _hessian_holdings_options "$word" "${COMP_WORDS[2]}" ;;
    holdings*)
        if [ "$COMP_CWORD" -eq 2 ]; then
            _hessian_words "$word" list check extract add
        else
            _hessian_files "$word"
        fi
        ;;
    help*) [ "$COMP_CWORD" -gt 2 ] || _hessian_words "$word" "$commands" ;;
    *) _hessian_files "$word" ;;
    esac
    [[ ${COMPREPLY[0]-} == *= ]] && compopt -o nospace 2>/dev/null
    return 0
}

complete -F _hessian hessian
