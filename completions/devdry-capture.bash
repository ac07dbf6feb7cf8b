# Completion of devdry-capture(1) for bash. It needs nothing else, not even the package bash-completion.

_devdry_capture() {
    local word=${COMP_WORDS[COMP_CWORD]} offered
    case ${COMP_WORDS[COMP_CWORD - 1]}:$word in
        --action:*) offered=(-W 'add remove change move online offline bind unbind') ;;
        --sysfs:*) offered=(-d) ;;
        --from:* | --answer-questions:* | *:[!-]* | *:) offered=(-f) ;;
        *) offered=(-W '--all --from --answer-questions --action --kernel --answers --walk --sysfs -h --help -V --version') ;;
    esac
    if [ "${offered[0]}" != -W ]; then compopt -o filenames 2> /dev/null; fi
    mapfile -t COMPREPLY < <(compgen "${offered[@]}" -- "$word")
}

complete -F _devdry_capture devdry-capture
