#!/usr/bin/env bash
# The recipes of examples/ci, each over a project with good files and over one with mistakes, with the tools that this
# machine has.
set -uo pipefail
# shellcheck source=lib.sh
. "$(dirname "$0")/lib.sh"
ci=$top/examples/ci
mkdir "$work/bin" && ln -s "$program" "$work/bin/devdry"
PATH=$work/bin:$PATH

# project NAME RULES HWDB: a folder with the recipes, rules/60-mine.rules and hwdb/60-mine.hwdb
project() {
    cp -r "$ci" "$work/$1"
    mkdir "$work/$1/rules" "$work/$1/hwdb"
    cp "$top/examples/$2" "$work/$1/rules/60-mine.rules"
    cp "$top/examples/$3" "$work/$1/hwdb/60-mine.hwdb"
}
project good disk.rules trackball.hwdb
# (what a comment leaves out is no message in any recipe)
printf '# devdry: ignore S2\nKERNEL=="none",TAG+="t"\n' >> "$work/good/rules/60-mine.rules"
printf '\n# devdry: ignore H2\nnone:*\n' >> "$work/good/hwdb/60-mine.hwdb"
project bad mistakes.rules mistakes.hwdb

# refused CASE TEXT COMMAND..: the command fails, and prints the text
refused() {
    local case=$1 text=$2 said
    shift 2
    if said=$("$@" 2>&1); then not_ok "$case" "$said"; elif [[ $said == *"$text"* ]]; then ok "$case"; else not_ok "$case" "$said"; fi
}
rules_message="rules/60-mine.rules:2: V2 unknown key: SUBSYSTEMM"
hwdb_message="hwdb/60-mine.hwdb:1: H1 property without a match: A=1"

goes_well "Makefile: good files" make -C "$work/good" check
refused "Makefile: mistakes" "$rules_message" make -C "$work/bad" check
refused "Makefile: mistakes in the database" "$hwdb_message" make -C "$work/bad" check RULES=
goes_well "Makefile: no files" make -C "$work/bad" check RULES= HWDB=

if has meson && has ninja; then
    (
        cd "$work/good" && goes_well "meson: good files" sh -c 'meson setup build && meson test -C build'
        cd "$work/bad" && refused "meson: mistakes" "$rules_message" sh -c 'meson setup build && meson test -C build --print-errorlogs'
    )
else
    skipped "meson" "there is no meson"
fi

in_project() { (cd "$work/$1" && shift && "$@"); }
goes_well "debian/rules: good files" in_project good make -f debian/rules override_dh_auto_test
refused "debian/rules: mistakes" "$rules_message" in_project bad make -f debian/rules override_dh_auto_test
for name in mine.udev udev; do
    cp "$work/bad/rules/60-mine.rules" "$work/good/debian/$name"
    refused "debian/rules: mistakes in debian/$name" "debian/$name:2: V2 unknown key: SUBSYSTEMM" \
        in_project good make -f debian/rules override_dh_auto_test
    rm "$work/good/debian/$name"
done
goes_well "debian/rules: no files" in_project bad make -f debian/rules override_dh_auto_test RULES= HWDB=

if has rpmbuild; then
    packed() {
        mkdir -p "$work/rpm-$1/SOURCES"
        (cd "$work" && mkdir -p mine-1 && cp -r "$1/rules" "$1/hwdb" mine-1 && tar -czf "rpm-$1/SOURCES/mine-1.tar.gz" mine-1 && rm -r mine-1)
        rpmbuild --define "_topdir $work/rpm-$1" --nodeps -bb "$work/$1/mine.spec"
    }
    goes_well "%check: good files" packed good
    refused "%check: mistakes" "60-mine.rules:2: V2 unknown key: SUBSYSTEMM" packed bad
else
    skipped "%check" "there is no rpmbuild"
fi

taken='debian/mine.udev
debian/udev
debian/udev/60-mine.rules
udev/60-mine.rules
usr/lib/udev/rules.d/60-mine.rules'
others='debian/rules
debian/mine.udevdb
polkit-1/rules.d/50-mine.rules
rules.d/50-mine.rules
src/udev.rules
udev/README
udev/60-mine.hwdb'
same "the hook selects only udev's files" "$taken" \
    "$(printf '%s\n' "$taken" "$others" | grep -E "$(sed -n 's/^  files: \(.*rules.*\)/\1/p' "$top/.pre-commit-hooks.yaml")")"
if has pre-commit && has git; then
    # hooked PROJECT FOLDER: the hooks over a project whose rules are in that folder, with a file that ends in .rules and
    # is not udev's
    hooked() {
        (
            rm -rf "$work/hooked" && mkdir -p "$work/hooked/$2" "$work/hooked/polkit/rules.d" && cd "$work/hooked" || exit
            cp "$work/$1/rules/"* "$2" && cp -r "$work/$1/hwdb" . && echo 'polkit.addRule(function() {});' > polkit/rules.d/50.rules
            export HOME=$work PRE_COMMIT_HOME=$work/cache
            git init -q . && git add . && git config --global --replace-all safe.directory '*'
            shift 2
            pre-commit "$@" --all-files
        )
    }
    goes_well "pre-commit: good files" hooked good udev try-repo "$top"
    refused "pre-commit: mistakes" "udev/60-mine.rules:2: V2 unknown key: SUBSYSTEMM" hooked bad udev try-repo "$top"
    refused "pre-commit: mistakes in the database" "$hwdb_message" hooked bad udev try-repo "$top"
    # (the recipe itself, over what is committed here)
    sed "s|https://example.org/devdry|$top|; s|v0.1.0|$(git -C "$top" rev-parse HEAD 2> /dev/null)|" \
        "$ci/pre-commit-config.yaml" > "$work/hooks.yaml"
    goes_well "pre-commit: good files in rules/" hooked good rules run -c "$work/hooks.yaml"
    refused "pre-commit: mistakes in rules/" "$rules_message" hooked bad rules run -c "$work/hooks.yaml"
else
    skipped "pre-commit" "there is no pre-commit"
fi

# steps FILE LINES: the commands of a recipe that these lines of it hold, each on a line of its own
steps() { sed -nE "$2" "$ci/$1"; }
github=$(steps github.yml 's/^ *run: (devdry .*)/\1/p')
gitlab=$(steps gitlab.yml '/^  script:/,/^  artifacts:/s/^    - //p')
# runs_job PROJECT [LINES]: GitLab's job, or these lines of it, as a runner starts them; the status is that of the job
runs_job() { in_project "$1" bash -eo pipefail -c "${2:-$gitlab}"; }
bad_messages='rules/60-mine.rules 2 V2 error unknown key: SUBSYSTEMM
rules/60-mine.rules 4 V7 error no later label: end
rules/60-mine.rules 6 S2 warning blank after a comma expected: TAG
hwdb/60-mine.hwdb 1 H1 error property without a match: A=1
hwdb/60-mine.hwdb 3 H2 error match without a property: m1
hwdb/60-mine.hwdb 6 H5 error empty key: =x
hwdb/60-mine.hwdb 7 H4 error no =: B
hwdb/60-mine.hwdb 8 H3 error unindented line after properties: m3
hwdb/60-mine.hwdb 11 H6 error pattern not supported: [[.a.]]'
if has python3; then
    # reads FORMAT: what is read from messages in this format, as tests/read_formats.py reads them
    reads() {
        PYTHONDONTWRITEBYTECODE=1 PYTHONPATH=$top/tests python3 -c '
import sys
from read_formats import READERS
for path, line, _, _, code, severity, said in READERS[sys.argv[1]](sys.stdin.buffer.read()):
    print(path, line, code, severity, said)' "$1" 2>&1
    }
    same "GitHub's steps" 2 "$(wc -l <<< "$github")"
    same "GitHub's annotations" "$bad_messages" "$(in_project bad sh -c "$github" 2>&1 > /dev/null | reads github)"
    goes_well "GitHub's steps: good files" in_project good sh -ec "$github"
    if has jq; then
        goes_well "GitLab's job: good files" runs_job good
        same "GitLab's report without a message" "[]" "$(jq --compact-output . "$work/good/report.json")"
        # job_ends CASE PROJECT STATUS MESSAGES TEXT [LINES]: the job ends in this way, prints the text, and its report has the messages
        job_ends() {
            local said status=0
            rm -f "$work/$2/report.json"
            said=$(runs_job "$2" "${6:-}" 2>&1) || status=$?
            same "GitLab's job, $1: the status" "$3" "$status"
            same "GitLab's job, $1: the report" "$(grep -c . <<< "$4"): $4" \
                "$(jq length "$work/$2/report.json" 2>&1): $(reads gitlab < "$work/$2/report.json")"
            goes_well "GitLab's job, $1: the printed text" grep -qF "$5" <<< "$said"
        }
        of_rules=$(grep '^rules/' <<< "$bad_messages")
        job_ends "mistakes" bad 1 "$bad_messages" '"check_name":"V2"'
        for project in good bad; do
            cp -r "$work/$project" "$work/$project-rules" && rm -r "$work/$project-rules/hwdb"
            job_ends "no database, $project rules" "$project-rules" 3 "$([ $project = good ] || echo "$of_rules")" \
                "devdry: cannot read hwdb/*.hwdb"
        done
        job_ends "no database, without the command for the database" bad-rules 1 "$of_rules" '"check_name":"V2"' "$(grep -v 'devdry update' <<< "$gitlab")"
        rm -r "$work/good-rules/rules"
        job_ends "no files" good-rules 3 "" "devdry: cannot read rules/*.rules"
    else
        skipped "GitLab's report" "there is no jq"
    fi
    if python3 -c 'import yaml' 2> /dev/null; then for file in "$top/.pre-commit-hooks.yaml" "$ci"/*.yml "$ci"/*.yaml; do
        goes_well "${file##*/} is YAML" python3 -c 'import sys, yaml; yaml.safe_load(open(sys.argv[1]))' "$file"
    done; else skipped "the recipes are YAML" "there is no module yaml of python3"; fi
else
    skipped "GitHub's annotations and GitLab's report" "there is no python3"
fi

# An image of the project's files, and one that has none.
for it in good bad; do
    mkdir -p "$work/$it/root/usr/lib/udev/rules.d" "$work/$it/root/usr/lib/udev/hwdb.d"
    cp "$work/$it/rules/"* "$work/$it/root/usr/lib/udev/rules.d"
    cp "$work/$it/hwdb/"* "$work/$it/root/usr/lib/udev/hwdb.d"
done
goes_well "image.sh: good files" "$ci/image.sh" "$work/good/root"
refused "image.sh: mistakes" "root/usr/lib/udev/rules.d/60-mine.rules:2:1: error: unknown key: SUBSYSTEMM [V2]" "$ci/image.sh" "$work/bad/root"
refused "image.sh: no files" "rules.d: absent" "$ci/image.sh" "$work/none"
refused "image.sh: no root" "1" "$ci/image.sh" ""
# image_ends CASE STATUS COMMAND..: image.sh ends in this way over a copy of the good image, in whose /usr/lib/udev the command was run
image_ends() {
    local case=$1 wanted=$2 status=0
    shift 2
    rm -rf "$work/image" && cp -r "$work/good/root" "$work/image" && (cd "$work/image/usr/lib/udev" && "$@")
    "$ci/image.sh" "$work/image" > /dev/null 2>&1 || status=$?
    same "image.sh: the status of $case" "$wanted" "$status"
}
# lost FOLDER [BAD]: a link to nothing in this folder, and mistakes in the other
lost() { ln -s nothing "$1/90-lost.${1%.d}" && if [ $# = 2 ]; then cp "$top/examples/mistakes.${2%.d}" "$2"; fi; }
image_ends "mistakes in rules" 1 cp "$top/examples/mistakes.rules" rules.d
image_ends "mistakes in the database" 1 cp "$top/examples/mistakes.hwdb" hwdb.d
image_ends "a substitution that the manual does not have" 0 sh -c "echo 'ENV{NODE}=\"\$tempnode\"' > rules.d/50-old.rules"
image_ends "rules that can't be read" 3 lost rules.d
image_ends "rules that can't be read, and mistakes in the database" 3 lost rules.d hwdb.d
image_ends "a database that can't be read, and mistakes in rules" 3 lost hwdb.d rules.d
image_ends "no database" 1 rm -r hwdb.d
image_ends "rules that can't be read, and no database" 3 sh -c 'ln -s nothing rules.d/90-lost.rules; rm -r hwdb.d'

if has vim; then
    mkdir -p "$work/vim/compiler" && cp "$ci/devdry.vim" "$work/vim/compiler"
    said=$(in_project bad vim -u NONE -i NONE -es -N -c "set runtimepath^=$work/vim" -c 'edit rules/60-mine.rules' \
        -c 'compiler devdry' -c 'silent make!' \
        -c 'call writefile(map(getqflist(), "bufname(v:val.bufnr).\" \".v:val.lnum.\" \".v:val.col.\" \".v:val.type.\" \".v:val.text"), "list")' \
        -c 'qall!' 2>&1 > /dev/null; cat "$work/bad/list")
    same "vim reads the messages" "rules/60-mine.rules 2 1 e unknown key: SUBSYSTEMM [V2]
rules/60-mine.rules 4 22 e no later label: end [V7]
rules/60-mine.rules 6 15 w blank after a comma expected: TAG [S2]" "$said"
else
    skipped "vim" "there is no vim"
fi
if has emacs; then
    # emacs_reads FILE: what M-x devdry makes of a file: each message by line, column and whether it is an error (2)
    emacs_reads() {
        in_project bad emacs --batch -Q -l "$ci/devdry.el" "$1" --eval '
            (let (done)
              (add-hook (quote compilation-finish-functions) (lambda (&rest _) (setq done t)))
              (devdry)
              (while (not done) (accept-process-output nil 0.1))
              (set-buffer "*compilation*")
              (compilation--ensure-parse (point-max))
              (goto-char (point-min))
              (while (not (eobp))
                (let* ((message (get-text-property (point) (quote compilation-message)))
                       (place (and message (compilation--message->loc message))))
                  (when place
                    (princ (format "%s %d %d %d\n"
                                   (file-relative-name (caar (compilation--loc->file-struct place)))
                                   (compilation--loc->line place) (compilation--loc->col place)
                                   (compilation--message->type message)))))
                (forward-line)))' 2> /dev/null
    }
    same "emacs reads messages about rules" "60-mine.rules 2 1 2
60-mine.rules 4 22 2
60-mine.rules 6 15 1" "$(emacs_reads rules/60-mine.rules)"
    same "emacs reads messages about the database" "60-mine.hwdb 1 2 2
60-mine.hwdb 3 1 2
60-mine.hwdb 6 2 2
60-mine.hwdb 7 2 2
60-mine.hwdb 8 1 2
60-mine.hwdb 11 1 2" "$(emacs_reads hwdb/60-mine.hwdb)"
else
    skipped "emacs" "there is no emacs"
fi
