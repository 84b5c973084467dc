# Completions for bash: source this file, or put it into ~/.local/share/bash-completion/completions under the name tohmeril.
_tohmeril_offer() {
    local each
    while IFS= read -r each; do
        COMPREPLY+=("$each")
    done
}
_tohmeril() {
    local word=${COMP_WORDS[COMP_CWORD]} before=${COMP_WORDS[COMP_CWORD - 1]} command=${COMP_WORDS[1]-} options=
    local parts="sessions assets bars labels numbers splits mergers dividends revisions"
    COMPREPLY=()
    if [ "$COMP_CWORD" -eq 1 ]; then
        _tohmeril_offer < <(compgen -W "run daily cut plan check fmt payouts explain verify windows bench" -- "$word")
        return
    fi
    # bash takes the = of --format=csv for a word of its own, and zsh does not
    if [[ $word == --format=* ]]; then
        _tohmeril_offer < <(compgen -W "--format=csv --format=fixed --format=cells" -- "$word")
        return
    elif [[ $word == --part=* ]]; then
        _tohmeril_offer < <(compgen -P --part= -W "$parts" -- "${word#--part=}")
        return
    elif [ "$word" = = ]; then
        word=
    elif [ "$before" = = ]; then
        before=${COMP_WORDS[COMP_CWORD - 2]}
    fi
    case $before in
        --format)
            _tohmeril_offer < <(compgen -W "csv fixed cells" -- "$word")
            return
            ;;
        --part)
            _tohmeril_offer < <(compgen -W "$parts" -- "$word")
            return
            ;;
        --chunk | --asof) return ;;
    esac
    if [[ $word == -* ]]; then
        case $command in
            run) options="--labels --numbers --results --adjustments --revisions --chunk --format --stats --asof" ;;
            daily) options="--labels --numbers --results --adjustments --revisions --format" ;;
            cut) options="--labels --numbers --results --adjustments --revisions --part" ;;
            explain | verify) options="--labels --numbers --results --adjustments --revisions" ;;
            windows) options="--adjustments --revisions" ;;
            bench) options="--chunk" ;;
        esac
        _tohmeril_offer < <(compgen -W "$options" -- "$word")
        return
    fi
    _tohmeril_offer < <(compgen -f -- "$word")
}
complete -o filenames -F _tohmeril tohmeril ./tohmeril
