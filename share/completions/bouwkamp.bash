# Completion of bouwkamp for bash. Made by scripts/check_docs.py --write from README.md: change that, and not this file.
_bouwkamp() {
    local words=() name
    COMPREPLY=()
    if ((COMP_CWORD == 1)); then
        words=(check canon images net flow word solve draw list trial dual verify alike pair help)
    elif ((COMP_CWORD % 2)); then
        # (behind an option comes its value)
        case "${COMP_WORDS[1]} ${COMP_WORDS[COMP_CWORD - 1]}" in
            'list --order') words=(2 3 4 5 6 7 8 9 10 11 12 13 14 15 16) ;;
            'list --class') words=(perfect imperfect simple) ;;
            'verify --order') words=(2 3 4 5 6 7 8 9 10 11 12 13 14 15 16) ;;
            'pair --kind') words=(perfect any) ;;
        esac
    else
        case "${COMP_WORDS[1]}" in
            list) words=(--order --class --from --limit) ;;
            verify) words=(--order) ;;
            trial) words=(--seed --count) ;;
            pair) words=(--kind) ;;
        esac
    fi
    for name in "${words[@]}"; do
        # (an option comes once)
        if [[ $name != --* || " ${COMP_WORDS[*]:2:COMP_CWORD-2} " != *" $name "* ]]; then
            [[ $name == "${COMP_WORDS[COMP_CWORD]}"* ]] && COMPREPLY+=("$name")
        fi
    done
}
complete -F _bouwkamp bouwkamp
