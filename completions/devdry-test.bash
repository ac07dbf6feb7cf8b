# Completion of devdry-test(1) for bash. It needs nothing else, not even the package bash-completion.

_devdry_test() {
    local word=${COMP_WORDS[COMP_CWORD]} offered
    case ${COMP_WORDS[COMP_CWORD - 1]}:$word in
        --action:*) offered=(-W 'add remove change move online offline bind unbind') ;;
        --color:*) offered=(-W 'auto always never') ;;
        -r:* | --root:*) offered=(-d) ;;
        --from:* | *:[!-]* | *:) offered=(-f) ;;
        *) offered=(-W '--action -r --root --from --color --json -h --help -V --version') ;;
    esac
    if [ "${offered[0]}" != -W ]; then compopt -o filenames 2> /dev/null; fi
    mapfile -t COMPREPLY < <(compgen "${offered[@]}" -- "$word")
}

complete -F _devdry_test devdry-test
