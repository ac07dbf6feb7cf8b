#!/usr/bin/env bash
# The options and commands that --help prints are those of the man pages and of the completions, no more and no fewer.
set -uo pipefail
# shellcheck source=lib.sh
. "$(dirname "$0")/lib.sh"

# The options of a command, or of the program, by its help: the first column of its lines.
helps() {
    "$program" "$@" --help | sed -nE '/^Options:/,/^$/s/^ +(-[a-zA-Z], +)?(--[a-z-]+).*/\1\2/p' \
        | tr -s ', ' '\n' | sort -u
}

# The commands, by the help of the program.
commands=$("$program" --help | sed -n '/^Commands:/,/^$/s/^  \([a-z]*\) .*/\1/p' | sort)
verbs=$(grep -vx help <<< "$commands")

# The codes, by what is said about an unknown one.
codes=$("$program" explain none 2>&1 | sed -n 's/.*possible values: \(.*\)\]$/\1/p' | tr -d , | tr ' ' '\n' | LC_ALL=C sort)

# The options that the section OPTIONS of a page lists.
pages() {
    sed -n '/^\.Sh OPTIONS/,/^\.Sh EXIT\|^\.Sh FILES/s/^\.It \(Fl.*\)/\1/p' "$1" \
        | grep -oE 'Fl (Fl )?[A-Za-z-]+' | sed -E 's/^Fl Fl /--/; s/^Fl /-/' | sort -u
}

# The options that the synopsis of a page names, each in one of its forms.
synopses() { sed -n '/^\.Sh SYNOPSIS/,/^\.Sh DESC/s/^\.Op \(Fl.*\)/\1/p' "$1" | sed -E 's/^Fl Fl /--/; s/^Fl /-/; s/ .*//'; }

same "devdry(1) has the options of --help" "$(helps)" "$(pages "$top/man/devdry.1")"
same "devdry(1) has the commands of --help" "$commands" \
    "$(sed -n '/^\.Sh COMMANDS/,/^\.Sh OPT/s/^\.It Cm //p' "$top/man/devdry.1" | sort)"
same "there is a page for each command" "$verbs" \
    "$(cd "$top/man" && printf '%s\n' devdry-*.1 | sed 's/^devdry-//; s/\.1$//' | grep -vxE 'capture|lsp|test' | sort)"
for verb in $verbs; do
    page=$top/man/devdry-$verb.1
    same "devdry-$verb(1) has the options of --help" "$(helps "$verb")" "$(pages "$page")"
    named=0 missing=
    for option in $(synopses "$page"); do
        named=$((named + 1))
        helps "$verb" | grep -qxe "$option" || missing+=" $option"
    done
    lines=$("$program" "$verb" --help | grep -cE '^ +(-., )? *--')
    same "the synopsis of devdry-$verb(1) has all options except help and version" "$((lines - 2))$missing" "$named$missing"
    for name in $("$program" "$verb" --help | sed -nE '/^Arguments:/,/^$/s/^ +[[<]([A-Z]+).*/\1/p'); do
        goes_well "the synopsis of devdry-$verb(1) has the argument $name" \
            grep -qE "^\.(Op )?Ar $name" <(sed -n '/^\.Sh SYNOPSIS/,/^\.Sh DESC/p' "$page")
    done
done

captures=$(program=$top/tools/devdry-capture; helps)
tests=$(program=$top/tools/devdry-test; helps)
for script in capture test; do
    options=$captures
    if [ "$script" = test ]; then options=$tests; fi
    same "devdry-$script(1) has the options of --help" "$options" "$(pages "$top/man/devdry-$script.1")"
    # (--root is named by its short form)
    same "the synopsis of devdry-$script(1) has all options except help and version" \
        "$(grep -vxE -e '-h|--help|-V|--version|--root' <<< "$options")" \
        "$(sed -n '/^\.Sh SYNOPSIS/,/^\.Sh DESC/p' "$top/man/devdry-$script.1" | grep -oE 'Fl (Fl )?[a-z-]+' | sed 's/^Fl Fl /--/; s/^Fl /-/' | sort -u)"
done

# What bash offers after these words, the first of which is the program.
bash_offers() {
    (
        complete() { completing=$2; }
        # shellcheck source=../completions/devdry.bash disable=SC2317
        . "$top/completions/$1.bash"
        COMP_WORDS=("$@") COMP_CWORD=$(($# - 1))
        "$completing"
        printf '%s\n' "${COMPREPLY[@]}" | sort -u
    )
}
same "bash offers the commands" "$({ echo "$commands"; helps; } | sort -u)" "$(bash_offers devdry '')"
for verb in $verbs; do
    same "bash offers the options of $verb" "$(helps "$verb")" "$(bash_offers devdry "$verb" -)"
done
(
    cd "$work" && mkdir folder && touch a.rules b.hwdb c.txt
    same "bash offers rules files and folders to verify" "a.rules folder" "$(bash_offers devdry verify '' | paste -s -d " " -)"
    same "bash offers database files to update" "b.hwdb folder" "$(bash_offers devdry update '' | paste -s -d " " -)"
    same "bash offers folders after -r" "folder" "$(bash_offers devdry query -r '' | paste -s -d " " -)"
    same "bash offers no file for a modalias" "" "$(bash_offers devdry query '' | paste -s -d " " -)"
    same "bash offers database files after a modalias" "b.hwdb folder" "$(bash_offers devdry query -r folder m '' | paste -s -d " " -)"
    same "bash offers all files after --index" "a.rules b.hwdb c.txt folder" "$(bash_offers devdry query --index '' | paste -s -d " " -)"
    same "bash offers all files after --options" "a.rules b.hwdb c.txt folder" "$(bash_offers devdry files --options '' | paste -s -d " " -)"
    same "bash offers rules files after --why" "a.rules folder" "$(bash_offers devdry events --why '' | paste -s -d " " -)"
    same "bash offers codes to explain" "V1 V10 V11 V12 V13 V14 V15 V16 V17 V18 V19" "$(bash_offers devdry explain V1 | paste -s -d " " -)"
    same "bash offers folders to compare" "folder" "$(bash_offers devdry compare folder '' | paste -s -d " " -)"
    same "bash offers no file to files" "" "$(bash_offers devdry files '' | paste -s -d " " -)"
    same "bash offers no database file with an index" "" "$(bash_offers devdry query --index c.txt m '' | paste -s -d " " -)"
    same "bash offers rules files with an index" "a.rules folder" "$(bash_offers devdry events --index c.txt '' | paste -s -d " " -)"
    same "bash offers all files to devdry-capture" "a.rules b.hwdb c.txt folder" "$(bash_offers devdry-capture '' | paste -s -d " " -)"
    same "bash offers all files after --from" "c.txt" "$(bash_offers devdry-capture --from c)"
    same "bash offers folders after --sysfs" "folder" "$(bash_offers devdry-capture --sysfs '')"
    same "bash offers all files after --answer-questions" "c.txt" "$(bash_offers devdry-capture --answer-questions c)"
    same "bash offers all files to devdry-test" "a.rules b.hwdb c.txt folder" "$(bash_offers devdry-test '' | paste -s -d " " -)"
    same "bash offers folders to devdry-test after -r" "folder" "$(bash_offers devdry-test -r '')"
    same "bash offers all files to devdry-test after --from" "c.txt" "$(bash_offers devdry-test --from c)"
)
same "bash offers formats after --format" "gcc github gitlab" "$(bash_offers devdry verify --format g | paste -s -d " " -)"
same "bash offers codes after --ignore" "H H1 H2 H3 H4 H5 H6" "$(bash_offers devdry update --ignore H | paste -s -d " " -)"
same "bash offers codes of lints after --ignore" "W1 W10 W11 W12 W13 W14 W15 W16 W17 W18 W19" "$(bash_offers devdry verify --ignore W1 | paste -s -d " " -)"
same "bash offers codes after a comma" "V6,S V6,S1 V6,S2 V6,S3 V6,S4 V6,S5 V6,S6" "$(bash_offers devdry verify --ignore V6,S | paste -s -d " " -)"
same "bash offers the codes to explain" "$codes" "$(bash_offers devdry explain '' | LC_ALL=C sort)"
same "docs/messages.md has these codes" "$codes" "$(sed -nE 's/^### ([A-Z][0-9]+) .*/\1/p' "$top/docs/messages.md" | LC_ALL=C sort)"
same "bash offers the options of devdry-capture" "$captures" "$(bash_offers devdry-capture --kernel -)"
same "bash offers actions after --action" "change" "$(bash_offers devdry-capture --action c)"
same "bash offers the options of devdry-test" "$tests" "$(bash_offers devdry-test eth0 -)"
same "bash offers when there are colors" "always auto" "$(bash_offers devdry-test --color a | paste -s -d " " -)"

if has zsh; then
    # What the function of a program passes to _arguments for a command; the first words of each spec are options.
    zsh_offers() {
        zsh -f -c '
            _arguments() { if [ "$1" = -C ]; then state=argument; else print -l -- "${@#\*}"; fi; }
            words=($2 -) CURRENT=2
            . $1' zsh "$top/completions/_$1" "$2" | sed -nE 's/^(\([^)]*\))?(--?[A-Za-z-]+)\[.*/\2/p' | sort -u
    }
    for verb in $verbs; do same "zsh offers the options of $verb" "$(helps "$verb")" "$(zsh_offers devdry "$verb")"; done
    same "zsh offers the options of devdry-capture" "$captures" "$(zsh_offers devdry-capture '')"
    same "zsh offers the options of devdry-test" "$tests" "$(zsh_offers devdry-test '')"
    zsh_commands=$(zsh -f -c '
        _arguments() { state=command; }
        _describe() { print -l -- ${(P)4}; }
        . $1' zsh "$top/completions/_devdry" | sed 's/:.*//' | sort)
    same "zsh offers the commands" "$commands" "$zsh_commands"
else
    skipped "what zsh offers" "there is no zsh"
fi

if has fish; then
    fish_offers() { fish --no-config -c "source '$top/completions/${1%% *}.fish'; complete -C '$1'" | cut -f 1 | sort -u; }
    same "fish offers the commands" "$commands" "$(cd "$work" && fish_offers 'devdry ')"
    for verb in $verbs; do same "fish offers the options of $verb" "$(helps "$verb")" "$(fish_offers "devdry $verb -")"; done
    same "fish offers the options of devdry-capture" "$captures" "$(fish_offers 'devdry-capture -')"
    same "fish offers actions after --action" "change" "$(fish_offers 'devdry-capture --action c')"
    same "fish offers the options of devdry-test" "$tests" "$(fish_offers 'devdry-test -')"
    same "fish offers when there are colors" "always auto" "$(fish_offers 'devdry-test --color a' | paste -s -d " " -)"
else
    skipped "what fish offers" "there is no fish"
fi
