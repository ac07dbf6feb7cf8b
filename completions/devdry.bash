# Completion of devdry(1) for bash. It needs nothing else, not even the package bash-completion.

# _devdry_files SUFFIX: what the current word may become: folders, and files with that suffix.
_devdry_files() {
    compopt -o filenames 2> /dev/null
    mapfile -t COMPREPLY < <(compgen -d -- "$word"; [ -z "$1" ] || compgen -f -X "!*$1" -- "$word")
}

# _devdry_added: the current word may become a file that is added: rules, or for all but verify a file of the database.
_devdry_added() {
    local suffixes='@(.rules|.hwdb)'
    [ "$command" != verify ] || suffixes=.rules
    compopt -o filenames 2> /dev/null
    mapfile -t COMPREPLY < <(compgen -d -- "$word"; shopt -s extglob; compgen -f -X "!*$suffixes" -- "$word")
}

# _devdry_any_files: the current word may become any file or folder.
_devdry_any_files() {
    compopt -o filenames 2> /dev/null
    mapfile -t COMPREPLY < <(compgen -f -- "$word")
}

# _devdry_words WORD..: those of the words that begin with the current one.
_devdry_words() {
    mapfile -t COMPREPLY < <(compgen -W "$*" -- "$word")
}

# _devdry_formats: the current word may become a format: answers have fewer.
_devdry_formats() {
    case $command in
        events | compare) _devdry_words plain json human ;;
        *) _devdry_words plain gcc github gitlab json sarif human ;;
    esac
}

_devdry_codes='V1 V2 V3 V4 V5 V6 V7 V8 V9 V10 V11 V12 V13 V14 V15 V16 V17 V18 V19 V20 V21 V22 V23 V24 V25 V26 S1 S2 S3 S4 S5 S6 H1 H2 H3 H4 H5 H6 W1 W2 W3 W4 W5 W6 W7 W8 W9 W10 W11 W12 W13 W14 W15 W16 W17 W18 W19 W20 W21 W22 W23 W24 W25 W26 W27 D1 D2 D3 D4 D5 D6 D7 D8 D9 D10 D11 D12 D13 L1 L2 L3 L4 L5'

# _devdry_code_list: the current word may become codes with commas between them, with `comments` among them.
_devdry_code_list() {
    local front=
    case $word in *,*) front=${word%,*}, ;; esac
    mapfile -t COMPREPLY < <(compgen -P "$front" -W "V S H W D L I $_devdry_codes comments" -- "${word##*,}")
}

# Whether query takes a database file as the current word: after a modalias, a word that is neither an option nor the
# value of one, and not if there is an index.
_devdry_takes_database() {
    local at takes=1
    for ((at = 2; at < COMP_CWORD; at++)); do
        case ${COMP_WORDS[at]} in
            -r | --root | --options) at=$((at + 1)) ;;
            --index) return 1 ;;
            -*) ;;
            *) takes=0 ;;
        esac
    done
    return $takes
}

# _devdry_checked: the suffix of the files that verify checks, by the options before the current word.
_devdry_checked() {
    case " ${COMP_WORDS[*]:0:COMP_CWORD} " in
        *' --links '*) echo .link ;;
        *) echo .rules ;;
    esac
}

# _devdry_arguments: the current word is neither an option of the command nor the value of one.
_devdry_arguments() {
    case $command in
        files) ;;
        explain) _devdry_words "$_devdry_codes I1 I2" ;;
        verify) _devdry_files "$(_devdry_checked)" ;;
        *) if [ "$command" != query ] || _devdry_takes_database; then _devdry_files "$suffix"; fi ;;
    esac
}

_devdry() {
    local word=${COMP_WORDS[COMP_CWORD]} before=${COMP_WORDS[COMP_CWORD - 1]} command=${COMP_WORDS[1]}
    local options suffix
    COMPREPLY=()
    if [ "$COMP_CWORD" -eq 1 ]; then
        _devdry_words verify query update events files compare fmt explain help --help --version -h -V
        return
    fi
    case $command in
        verify) suffix=.rules options='--options -r --root --with -s --strict --all --format --color --ignore --no-summary --no-style --lint --links --udev --users --groups --stdin-name -h --help -V --version' ;;
        query) suffix=.hwdb options='--options -r --root --all --sources --index --stdin-name -h --help -V --version' ;;
        update) suffix=.hwdb options='--options -r --root -s --strict --all --format --color --ignore --lint --stdin-name -h --help -V --version' ;;
        events) suffix=.rules options='--options -r --root --with --all --format --sources --why --unused --questions --index --udev -h --help -V --version' ;;
        files) suffix='' options='--options -r --root --with -h --help -V --version' ;;
        compare)
            suffix='' options='--options --with --all --format --sources --index --udev --rules -h --help -V --version'
            case " ${COMP_WORDS[*]} " in *' --rules '*) suffix=.rules ;; esac
            ;;
        fmt) suffix=.rules options='--options --check --stdin-name -h --help -V --version' ;;
        explain) suffix='' options='-h --help -V --version' ;;
        help)
            [ "$COMP_CWORD" -gt 2 ] || _devdry_words verify query update events files compare fmt explain help
            return
            ;;
        *) return ;;
    esac
    case $before:$word in
        -r:* | --root:*) _devdry_files '' ;;
        --options:* | --index:* | --users:* | --groups:* | --stdin-name:*) _devdry_any_files ;;
        --why:*) _devdry_files .rules ;;
        --with:*) _devdry_added ;;
        --format:*) _devdry_formats ;;
        --color:*) _devdry_words auto always never ;;
        --ignore:*) _devdry_code_list ;;
        *:-*) _devdry_words "$options" ;;
        *) _devdry_arguments ;;
    esac
}

complete -F _devdry devdry
