# Completion of prepaid for bash. tests/words_test.py compares its words with the help.

_prepaid()
{
    local current=${COMP_WORDS[COMP_CWORD]} previous=${COMP_WORDS[COMP_CWORD - 1]}
    local words
    local -a given=("${COMP_WORDS[@]}")
    local place=$COMP_CWORD
    if [[ ${given[1]} == --explain || ${given[1]} == --plain ]] && ((place > 1)); then
        # the command comes behind this word
        given=("${given[0]}" "${given[@]:2}")
        place=$((place - 1))
    fi
    if ((place == 1)); then
        words='price replay run audit quote rate serve help --explain --plain --help -h --version -V'
    elif [[ $previous == --default ]]; then
        words='proceed release'
    elif [[ $previous == --log ]]; then
        COMPREPLY=($(compgen -f -- "$current"))
        return
    elif [[ $previous == --into ]]; then
        COMPREPLY=($(compgen -d -- "$current"))
        return
    elif [[ $previous == --* && $previous != --book && $previous != --calls && $previous != --trace && $previous != --lines && $previous != --clock && $previous != --long && $previous != --rows && $previous != --differing && $previous != --summary && $previous != --help && $previous != --version ]]; then
        # a number or a name comes next
        words=''
    else
        case ${given[1]} in
            price) words='--fee --before --after --free --first --step --help -h' ;;
            replay) words='--opening --limit --help -h' ;;
            run) words='--workers --parts --threads --wanted --least --tssf --tccd --delay --default --book --calls --trace --clock --into --help -h' ;;
            audit) words='--long --rows --lines --help -h' ;;
            quote) words='--called --at --for --credit --clock --help -h' ;;
            rate) words='--called --answer --paid --time --end --before --after --differing --summary --help -h' ;;
            serve) words='--wanted --least --tccd --log --again --lines --book --calls --help -h' ;;
            help) words='price replay run audit quote rate serve help' ;;
            *) words='' ;;
        esac
    fi
    COMPREPLY=($(compgen -W "$words" -- "$current"))
}
# where no word fits, as behind the < of an input, there are the names of files
complete -o default -o filenames -F _prepaid prepaid
